#!/usr/bin/env python3
"""Prints what a commit said and the tree says otherwise: usage: design_changes.py COMMIT

The signatures and clauses of public functions and the declarations of types (crates/*/src), the definitions (crates/*/specs), and the statements of the theorems
(crates/*/proofs) that README or docs/ name, old and new one above the other. What is only laid out otherwise is left out, and so are lists of imports and comments.
"""

import os
import re
import subprocess
import sys

TOP = os.path.dirname(os.path.dirname(os.path.abspath(__file__)))


def flat(text):
    return re.sub(r",(?= [)}\]])", "", re.sub(r"\s+", " ", text)).strip()


def source(text):
    """Public functions with their clauses, and types, by name."""
    text = re.sub(r"//[^\n]*", "", text)
    for m in re.finditer(r"^( *)pub (?:const )?fn (\w+).*?(?=\n\1\{|\{\n)", text, re.M | re.S):
        yield f"fn {m[2]}", flat(m[0])
    for m in re.finditer(r"^pub (struct|enum|type|const) (\w+).*?(?:^\}|;$)", text, re.M | re.S):
        yield f"{m[1]} {m[2]}", flat(m[0])


def antt(text):
    """Declarations at the margin with all that belongs to them, by name."""
    text = re.sub(r"(^|\s)--[^\n]*", r"\1", text)
    parts = re.split(r"^(?=(?:pub |abbrev |unfoldable |record |data )*[^\s:=(]+ (?:\([^\n]*\) |\{[^\n]*\} )*: )", text, flags=re.M)
    for part in parts:
        m = re.match(r"((?:pub |abbrev |unfoldable |record |data )*)([^\s:=(]+) ", part)
        if m and "pub" in m[1]:
            yield m[2], flat(part)


def statement(name, part):
    """A theorem without its proof, which begins where its name stands again."""
    places = [m.start() for m in re.finditer(r"(?<!\S)" + re.escape(name) + r"(?!\S)", part)]
    return re.sub(r" unfolding .*$", "", part[: places[1]].strip() if len(places) > 1 else part)


def tree(read, paths, named):
    found = {}
    for path in paths:
        m = re.match(r"crates/(\w+)/(src|specs|proofs)/", path)
        if not m:
            continue
        if m[2] == "src" and path.endswith(".rt"):
            found.update({("signatures and types", m[1], n): t for n, t in source(read(path))})
        elif m[2] == "specs" and path.endswith(".antt"):
            found.update({("definitions", m[1], n): t for n, t in antt(read(path))})
        elif m[2] == "proofs" and path.endswith(".antt") and path.count("/") == 3:
            found.update({("theorems that README or docs/ name", m[1], n): statement(n, t) for n, t in antt(read(path)) if n in named})
    return found


def main(commit):
    def git(*words):
        return subprocess.run(["git", "-C", TOP, *words], stdout=subprocess.PIPE, text=True, check=True).stdout

    def now(path):
        with open(os.path.join(TOP, path), encoding="utf-8") as f:
            return f.read()

    pages = [now("README.md")] + [now(f"docs/{p}") for p in os.listdir(os.path.join(TOP, "docs")) if p.endswith(".md") and p != "DESIGN-PASS.md"]
    named = set(re.findall(r"`([a-z][\w'-]*)`", "\n".join(pages)))
    paths = [os.path.relpath(os.path.join(d, f), TOP) for d, _, fs in os.walk(os.path.join(TOP, "crates")) for f in fs]
    old = tree(lambda p: git("show", f"{commit}:{p}"), git("ls-tree", "-r", "--name-only", commit, "crates").split("\n"), named)
    new = tree(now, sorted(paths), named)
    for kind in ("signatures and types", "definitions", "theorems that README or docs/ name"):
        changed = sorted(k for k in old.keys() | new.keys() if k[0] == kind and old.get(k) != new.get(k))
        print(f"### {kind[0].upper()}{kind[1:]}: {len(changed)}\n\n```")
        for key in changed:
            print(f"{key[1]}: {key[2]}")
            print(f"- {old.get(key, '(none)')}\n+ {new.get(key, '(none)')}")
        print("```\n")


main(sys.argv[1])
