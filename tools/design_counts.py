#!/usr/bin/env python3
"""Counts the places of each point of docs/DESIGN-PASS.md in crates/*/src: usage: design_counts.py [-l] [POINT ..]

With -l each place is printed, with its file and line. The rules go by text, so they find candidates: the page says which of them are kept and why.
"""

import collections
import os
import re
import sys

ROOT = os.path.join(os.path.dirname(os.path.dirname(os.path.abspath(__file__))), "crates")


def sources():
    for crate in sorted(os.listdir(ROOT)):
        folder = os.path.join(ROOT, crate, "src")
        for name in sorted(os.listdir(folder)) if os.path.isdir(folder) else []:
            if name.endswith(".rt"):
                with open(os.path.join(folder, name), encoding="utf-8") as f:
                    yield f"{crate}/src/{name}", f.read()


def line(text, at):
    return text.count("\n", 0, at) + 1


def code(text):
    """The text without comments, with as many characters."""
    return re.sub(r"//[^\n]*", lambda m: " " * len(m[0]), text)


def functions(text):
    """Each function: place, name, parameters, result, clauses, body."""
    for m in re.finditer(r"^( *)(?:pub )?fn (\w+)(?:<[^>{]*>)?\(", text, re.M):
        at, depth = m.end(), 1
        while depth:
            depth += {"(": 1, ")": -1}.get(text[at], 0)
            at += 1
        end = re.search(r"^" + m[1] + r"}$", text[at:], re.M)
        rest = text[at : at + end.end()] if end else text[at:]
        body = re.search(r"^" + m[1] + r"{$|{$", rest, re.M)
        head = rest[: body.start()] if body else rest
        result = re.match(r"\s*->\s*([^\n{]+)", head)
        yield m.start(), m[2], text[m.end() : at - 1], result[1].strip() if result else "", head, rest[len(head) :]


def enums():
    """Point 1: enums of the shape of Option or Result, refusals as numbers, numbers that stand for none."""
    for path, text in sources():
        plain = code(text)
        for m in re.finditer(r"^(?:pub )?enum (\w+) \{\n(.*?)^\}", plain, re.M | re.S):
            variants = re.findall(r"^    (\w+)(\(.*?\)|\{.*?\})?,", m[2], re.M | re.S)
            data = [v for v, d in variants if d]
            if len(variants) == 2 and len(data) == 1 or any(re.match(r"\(u8\b|\(Refusal\b", d) for v, d in variants if v in ("Refused", "Bad", "Fault")):
                yield path, line(text, m.start()), f"enum {m[1]}"
        for m in re.finditer(r"\b(?:Refused|Bad|Fault)\(\d+", plain):
            yield path, line(text, m.start()), f"number {m[0]}"
        for at, name, _, result, _, _ in functions(plain):
            above = re.search(r"((?:^ *//[^\n]*\n)+)\Z", text[:at], re.M)
            if above and re.search(r"\bor [01] where\b|^// 0, or|\bor 0 outside\b|\bor 0,? if\b|, or 0\b", above[1].replace("\n// ", " "), re.M):
                yield path, line(text, at), f"fn {name} -> {result}: a number for none"


def twins():
    """Point 2: functions of one shape, of five lines and more, once names and numbers are left out."""
    shapes = collections.defaultdict(list)
    for path, text in sources():
        for at, name, params, _, _, body in functions(code(text)):
            if body.count("\n") >= 5:
                shape = re.sub(r"\s+", "", re.sub(r"\b\d\w*\b", "0", re.sub(r"\b[A-Za-z_]\w*(?:::\w+)*", lambda m: m[0] if m[0] in KEY else "i", body)))
                shapes[shape].append((path, line(text, at), f"fn {name}"))
    for places in shapes.values():
        if len(places) > 1:
            yield from places


KEY = {"if", "else", "while", "loop", "match", "return", "let", "mut", "as", "for", "in", "true", "false", "break"}


def loops():
    """Point 3: loops that are no `for`."""
    for path, text in sources():
        for m in re.finditer(r"^ *(while|loop)\b[^\n]*\{$", code(text), re.M):
            yield path, line(text, m.start()), m[0].strip()


def by_hand():
    """Point 4: functions that compare, copy, convert a kind or print by hand."""
    for path, text in sources():
        for at, name, _, result, _, _ in functions(code(text)):
            if re.match(r"(equal|same|differ|compare|copy|less|at_most)(_|$)|\w+_(equal|less)$|(mark|id|kind|edition|form|field)_of$|(show|give|print)_", name):
                yield path, line(text, at), f"fn {name} -> {result}"
        for m in re.finditer(r"^impl (?!.*\bfor\b)|^(?:pub )?enum (Ordering)\b", code(text), re.M):
            if m[1]:
                yield path, line(text, m.start()), m[0]


def facts():
    """Point 5: facts that stand in the contracts of three functions and more, and parameters that travel together through as many."""
    seen, groups = collections.defaultdict(list), collections.defaultdict(list)
    for path, text in sources():
        for at, name, params, _, head, _ in functions(code(text)):
            for m in re.finditer(r"requires\*?(?: \w+)? \{ (.*?) \}\n", head, re.S):
                for part in re.split(r"\) × \(|\n", m[1].strip("() \n")):
                    seen[re.sub(r"\s+", " ", part.strip("() "))].append((path, line(text, at), f"fn {name}"))
            words = [p.strip() for p in re.split(r",\s*(?![^<\[(]*[>\])])", params) if ":" in p]
            for i in range(len(words) - 2):
                groups[", ".join(words[i : i + 3])].append((path, line(text, at), f"fn {name}"))
    for fact, places in sorted(seen.items()):
        if len(places) >= 3 and fact:
            yield places[0][0], places[0][1], f"{len(places)} contracts: {fact}"
    for group, places in sorted(groups.items()):
        if len(places) >= 3:
            yield places[0][0], places[0][1], f"{len(places)} functions: ({group})"


def buffers():
    """Point 6: slices with a length beside them, tables searched by hand, fixed arrays."""
    for path, text in sources():
        plain = code(text)
        for at, name, params, _, _, _ in functions(plain):
            if re.search(r"&(?:'\w+ )?(?:mut )?\[", params) and re.search(r"\b(count|len|used|ids|zones|held|left|n|k|m): (?:usize|u64|u32)\b", params):
                yield path, line(text, at), f"fn {name}"
        for m in re.finditer(r"\[0\w*; \d+\]", plain):
            yield path, line(text, m.start()), m[0]


def steps():
    """Point 7: matches on a step, a stage or a kind, and flags that choose what a function does."""
    for path, text in sources():
        plain = code(text)
        for m in re.finditer(r"^(?:pub )?enum (Turn|Stage|Step|Kind|Judged|Skipped)\b", plain, re.M):
            yield path, line(text, m.start()), m[0]
        for at, name, params, _, _, _ in functions(plain):
            if re.search(r"\b\w+: bool\b", params):
                yield path, line(text, at), f"fn {name}: " + ", ".join(re.findall(r"\w+: bool", params))


def answers():
    """Point 8: files of answers and walks, by crate."""
    for crate in sorted(os.listdir(ROOT)):
        for folder, _, names in os.walk(os.path.join(ROOT, crate, "proofs")):
            for name in sorted(names):
                if name in ("Answers.antt", "Proof.antt"):
                    path = os.path.join(folder, name)
                    yield os.path.relpath(path, ROOT), 1, f"{open(path, encoding='utf-8').read().count(' : goal.')} answers"


POINTS = [enums, twins, loops, by_hand, facts, buffers, steps, answers]


def main(words):
    listed = "-l" in words
    asked = [int(w) for w in words if w.isdigit()] or range(1, 9)
    for n in asked:
        places = sorted(set(POINTS[n - 1]()))
        print(f"{n}. {len(places)} places. {POINTS[n - 1].__doc__.split(': ', 1)[1]}")
        for path, at, what in places if listed else []:
            print(f"   {path}:{at}: {what}")


main(sys.argv[1:])
