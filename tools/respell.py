#!/usr/bin/env python3
"""Brings the repository's own definitions and lemmas to snake case, once, behind port.py: usage: respell.py FOLDER OLD

FOLDER is the top of the repository as port.py left it, OLD a checkout of the commit before. Types and facts keep their capitals and lemmas their dashes.
Where the older text had a lemma with dashes and a definition in camel case that differ in nothing else, the lemma keeps its dashes: port.py had
given some of these lemmas an underscore, so that the two would fall together. Names of src/, strings and outputs stay. What is printed is left by hand.
"""

import os
import re
import sys

CAMEL = re.compile(r"(?<![A-Za-z0-9'])[a-z][a-z0-9]*(?:[A-Z][A-Za-z0-9]*)+")
TOKEN = re.compile(r"[A-Za-z_][\w'-]*")
OLDER = {"getD": "get_or"}


def snake(word):
    return OLDER.get(word) or re.sub(r"(?<=[a-z0-9])[A-Z]|[A-Z](?=[a-z])", lambda m: "_" + m[0].lower(), word).lower()


def files(root, *endings):
    for folder, dirs, names in os.walk(os.path.join(root, "crates")):
        dirs[:] = sorted(d for d in dirs if d != "out")
        for name in sorted(names):
            if name.endswith(endings):
                yield os.path.relpath(os.path.join(folder, name), root)


def read(root, path):
    try:
        with open(os.path.join(root, path), encoding="utf-8") as f:
            return f.read()
    except FileNotFoundError:
        return ""


def tokens(text):
    return set(TOKEN.findall(re.sub(r"--.*", "", text)))


def pairs(old):
    """The lemmas with dashes that a definition in camel case would fall together with: by their common spelling."""
    every = set()
    for path in files(old, ".antt"):
        every |= tokens(read(old, path))
    camel = {snake(w) for w in every if CAMEL.fullmatch(w)}
    return {w.replace("-", "_"): w for w in every if "-" in w and w.islower() and w.replace("-", "_") in camel}


def main(root, old):
    dashed = pairs(old)
    for path in files(root, ".antt", ".rt", ".edit"):
        text = read(root, path)
        new = text
        if path.endswith(".antt"):
            before = tokens(read(old, path))
            after = tokens(text)
            turns = {}

            def back(m):
                word = m[0]
                if word not in dashed or m.string[: m.start()].endswith(".") or dashed[word] not in before:
                    return word
                camel = [w for w in before if CAMEL.fullmatch(w) and snake(w) == word]
                if camel and camel[0] not in text and dashed[word] in after:
                    return word
                if not camel or camel[0] in text:
                    return dashed[word]
                if word not in turns:
                    both = (dashed[word], camel[0])
                    was = [w for w in TOKEN.findall(re.sub(r"--.*", "", read(old, path))) if w in both]
                    now = [w for w in TOKEN.findall(re.sub(r"--.*", "", text)) if w == word]
                    turns[word] = was if len(was) == len(now) else []
                    if len(was) != len(now):
                        print(f"left: {path}: {word} may be {both[0]} or {both[1]}")
                return dashed[word] if turns[word] and turns[word].pop(0) == dashed[word] else word

            new = "\n".join(TOKEN.sub(back, l.split("--")[0]) + l[len(l.split("--")[0]):] for l in new.split("\n"))
        new = CAMEL.sub(lambda m: snake(m[0]), new) if not path.endswith(".rt") else "\n".join(CAMEL.sub(lambda m: snake(m[0]), l) if re.match(r"\s*(ghost|requires|ensures|//)", l) else l for l in new.split("\n"))
        if new != text:
            with open(os.path.join(root, path), "w", encoding="utf-8") as f:
                f.write(new)


if __name__ == "__main__":
    if len(sys.argv) != 3:
        sys.exit(__doc__)
    main(sys.argv[1], sys.argv[2])
