#!/usr/bin/env python3
"""Turns each Proof.antt of the older form into Invariants.antt and Answers.antt: usage: answers.py CRATE NAMES [--all]

CRATE is a crate's folder, NAMES the names.json that `rattle check --generated DIR --old-names` wrote of it. An answer that is nothing but a call of a
tactic is left out, since the check tries these by itself; --all keeps it. What is printed is left by hand.
"""

import glob
import json
import os
import re
import sys

NAME = r"[A-Za-z_ℓμα-ω][\w'₀-₉-]*"
PATH = re.compile(r"(?<![\w'.₀-₉-])(" + NAME + r")((?:\.[A-Za-z0-9_][\w'₀-₉-]*)+)")
TOKEN = re.compile(r"(?<![\w'₀-₉-])(" + NAME + r")(?![\w'₀-₉-])")
TACTIC = re.compile(r"(search rules|omega arith|tt|refl)$")


def norm(word):
    return word.replace("_", "-")


def clauses(root):
    """The names of the requires and ensures clauses of each function of the repository, by crate and path."""
    found = {}
    for path in glob.glob(os.path.join(root, "*", "src", "**", "*.rt"), recursive=True):
        crate = os.path.relpath(path, root).split(os.sep)[0]
        text = re.sub(r"//.*", "", open(path, encoding="utf-8").read())
        for m in re.finditer(r"\bfn (\w+)", text):
            rest = text[m.end():]
            end = re.search(r"\n\s*\{\n|\n\}|;\n|\{\n", rest)
            head = rest[: end.start()] if end else rest
            req = re.findall(r"(?m)^\s*requires (\w+) \{", head)
            ens = re.findall(r"(?m)^\s*ensures (\w+) \{", head)
            found.setdefault((crate, m[1]), (req, ens))
    return found


class Function:
    def __init__(self, crate, folder, names, known, keep):
        self.crate, self.folder, self.names, self.known, self.keep = crate, folder, names, known, keep
        self.path = os.path.relpath(folder, os.path.join(crate, "proofs")).replace(os.sep, ".")
        self.name = os.path.basename(crate)
        self.left = []
        self.helpers = {}
        self.asks = set()
        places = names["places"]
        self.index = {p[0]: i for i, p in enumerate(places)}
        self.byname = {norm(p[0]): i for i, p in enumerate(places)}
        self.parent = [self.index[p[1]] if p[1] else None for p in places]
        self.own = known.get((self.name, self.path.split(".")[-1].lstrip("+")), ([], []))

    def up(self, place, n):
        while n and place is not None:
            place, n = self.parent[place], n - 1
        return place

    def callee(self, place):
        full = self.names["places"][place][3]
        if not full:
            return [], []
        parts = full.split("::")
        return self.known.get((parts[0], parts[-1]), ([], []))

    def clause(self, kinds, parts):
        """The parts of a path behind .ensures or .requires, with a clause's name for its number."""
        if parts and parts[0].isdigit() and len(kinds) > 1 and int(parts[0]) < len(kinds):
            return [kinds[int(parts[0])]] + parts[1:]
        return parts

    def fields(self, start, place, parts):
        """The same, where the place may be another one above the start: the steps' names tell it."""
        at = place
        if at is None or not self.knows(at, parts):
            at = start
            while at is not None and not self.knows(at, parts):
                at = self.parent[at]
        return self.field(start if at is None else at, parts)

    def knows(self, place, parts):
        first = parts[0]
        if first in ("args", "ranges", "well_formed", "lifetimes", "utf8", "type-inv", "type_inv", "requires"):
            return True
        arm = self.names["arms"][place]
        if arm and any(norm(step) == norm(first) and parts[1: 1 + len(path)] == path and not new.endswith("-own") for new, step, path in arm[2]):
            return True
        return norm(self.names["places"][place][2][0]) == norm(first)

    def final(self, place):
        """The last place of an arm, which has all of its names."""
        arms = self.names["arms"]
        while arms[place]:
            next_ = [i for i, p in enumerate(self.parent) if p == place and arms[i] and arms[i][0] == arms[place][0]]
            if len(next_) != 1:
                break
            place = next_[0]
        return place

    def settled(self, place):
        """The place itself, or the next one below it at which a goal is asked, where only one way leads there."""
        asked = {self.final(self.index[p[0]]) for p in self.names["asked_at"]}
        first = place = self.final(place)
        while place not in asked:
            below = [i for i, p in enumerate(self.parent) if p == place]
            if len(below) != 1:
                return first
            place = self.final(below[0])
        return place

    def field(self, place, parts):
        """What the older path `parts`, behind its last .before, is called at the place."""
        first = parts[0]
        if first == "well-formed":
            return ["well_formed"] + parts[1:]
        if first in ("args", "ranges", "well_formed", "lifetimes", "utf8"):
            return parts
        if first in ("type-inv", "type_inv"):
            return ["type_inv"] + parts[1:]
        if first == "requires":
            return ["requires"] + self.clause(self.own[0], parts[1:])
        arm = self.names["arms"][place] if place < len(self.names["arms"]) else None
        if arm:
            best = None
            for new, step, path in arm[2]:
                if norm(step) == norm(first) and parts[1: 1 + len(path)] == path and not new.endswith("-own"):
                    if best is None or len(path) > len(best[1]):
                        best = (new, path)
            if best:
                rest = parts[1 + len(best[1]):]
                if best[0] == "ensures":
                    rest = self.clause(self.callee(place)[1], rest)
                return [arm[0], best[0]] + rest
        old, new = self.names["places"][place][2]
        if norm(old) == norm(first):
            rest = parts[1:]
            if rest and rest[0] == "ensures":
                rest = ["ensures"] + self.clause(self.callee(place)[1], rest[1:])
            if rest and rest[0] in ("auto", "new") and len(rest) > 1 and rest[1].isdigit():
                i = 1
                while i < len(rest) and rest[i] == "1":
                    i += 1
                names = self.names["params"].get(self.names["places"][place][3], [])
                if i < len(rest) and rest[i] == "0" and i - 1 < len(names):
                    rest = [rest[0], names[i - 1]] + rest[i + 1:]
            if rest and rest[0] in ("type-inv",):
                rest = ["type_inv"] + rest[1:]
            return [new] + rest
        if place and len(parts) > 1 and re.sub("[^a-z]", "", first.lower().replace("is", "")) == re.sub("[^a-z]", "", old.lower().replace("is", "")):
            return self.field(place, [old] + parts[1:])
        self.left.append(f"{self.path}: no field {'.'.join(parts)} at {self.names['places'][place][0]} ({old})")
        return parts

    def body(self, text, root, place, goal):
        """The text of an answer or a helper, whose record `root` is at the place."""
        env = {root: place} if place is not None else {}

        def bind(m):
            var, head, befores = m[1], m[2], m[3]
            if head in env:
                at = self.up(env[head], befores.count(".before"))
                if at is not None:
                    env[var] = at
                    return ""
            return m[0]

        binding = re.compile(r"let (" + NAME + r") = (" + NAME + r")((?:\.before)*) in\s*")
        while True:
            new = re.sub(binding, bind, text, count=1)
            if new == text:
                # a let that is none of ours may stand before one that is
                for m in binding.finditer(text):
                    if m[2] in env:
                        new = text[: m.start()] + re.sub(binding, bind, text[m.start():], count=1)
                        break
            if new == text:
                break
            text = new

        def passed(m):
            if m[3] not in env:
                return m[0]
            return m[1] + m[2] + self.whole(root, place, self.helpers[m[1]], goal)

        if self.helpers and env:
            some = "|".join(sorted(map(re.escape, self.helpers), key=len, reverse=True))
            text = re.sub(r"(?<![\w'.₀-₉-])(" + some + r")(\s+)(" + NAME + r")((?:\.before)*)(?![\w.'₀-₉-])", passed, text)

        def path(m):
            head, parts = m[1], m[2].split(".")[1:]
            if head not in env:
                return m[0]
            n = 0
            while parts and parts[0] == "before":
                parts, n = parts[1:], n + 1
            at = self.up(env[head], n)
            if not parts:
                if at is None:
                    self.left.append(f"{self.path}: too many befores in {m[0]}")
                    return m[0]
                return self.whole(root, place, at, goal)
            return ".".join([root] + self.fields(env[head], at, parts))

        text = PATH.sub(path, text)

        def bare(m):
            word = m[1]
            if word in env and word != root and text[m.end(): m.end() + 1] != ".":
                return self.whole(root, place, env[word], goal)
            return word

        return TOKEN.sub(bare, text)

    def parted(self, goal, old, body):
        """A body for a goal of several clauses: a record in place of a tuple."""
        kinds = []
        if goal.startswith("returns"):
            kinds = self.own[1]
        elif "-requires" in old:
            name = old[: old.index("-requires")]
            for full in self.names["params"]:
                parts = full.split("::")
                if norm(parts[-1]) == norm(name):
                    kinds = self.known.get((parts[0], parts[-1]), ([], []))[0]
        if len(kinds) < 2 or body.strip().startswith(("record", "search", "omega", "λ")):
            return body
        tail, head = body.rstrip(), ""
        if tail.endswith(")"):
            depth = 0
            for i in range(len(tail) - 1, -1, -1):
                depth += (tail[i] == ")") - (tail[i] == "(")
                if not depth:
                    break
            head, inner = tail[:i], tail[i + 1: -1]
            if not head.strip() or head.rstrip().endswith(" in"):
                parts, depth, word = [], 0, ""
                for ch in inner:
                    depth += (ch in "([{") - (ch in ")]}")
                    if ch == "," and not depth:
                        parts.append(word)
                        word = ""
                    else:
                        word += ch
                parts.append(word)
                if len(parts) == len(kinds):
                    return head + "record { " + "; ".join(f"{k} = {w.strip()}" for k, w in zip(kinds, parts)) + " }"
        m = re.match(r"((?:let .*? in\s+)*)(.*)$", body.strip(), re.S)
        head, tail = (m[1], m[2]) if m and " in " not in m[2] else ("", body.strip())
        return head + "record { " + "; ".join(f"{k} = ({tail}).{i}" for i, k in enumerate(kinds)) + " }"

    def whole(self, root, place, at, goal):
        if self.final(at) == self.final(place):
            return root
        new = self.names["places_by_name"][self.final(at)]
        if goal:
            return f"(goal.at.{goal} {root}).{new}"
        # a helper has its place's record: a goal of that place leads back as it does in the goal's answer
        self.asks.add(self.final(place))
        return f"(goal.at.⟪{self.final(place)}⟫ {root}).{new}"


def blocks(text):
    """The use lines and the declarations of a file: each a list of (comment, name, modifiers, signature, clauses text)."""
    uses, decls, comment, now = [], [], [], None
    for line in text.split("\n"):
        if line.startswith("use "):
            uses.append(line)
            now = None
        elif line.startswith("--"):
            comment.append(line)
            now = None
        elif not line.strip():
            continue
        elif line[0] in " \t":
            if now is not None:
                now[3].append(line)
        else:
            words = line.split()
            mods = []
            while words and words[0] in ("pub", "abbrev", "unfoldable"):
                mods.append(words.pop(0))
            name = words[0] if words else ""
            if name == "unfolding" and now is not None:
                now[3].append(line)
            elif now is not None and now[1] == name:
                now[3].append(line)
            else:
                now = [comment, name, mods, [line]]
                comment = []
                decls.append(now)
    return uses, decls


def split_arguments(text):
    out, depth, word = [], 0, ""
    for ch in text:
        if ch in "([{":
            depth += 1
        if ch in ")]}":
            depth -= 1
        if ch.isspace() and depth == 0:
            if word:
                out.append(word)
            word = ""
        else:
            word += ch
    if word:
        out.append(word)
    return out


def used(uses, text):
    words = set(re.findall(r"[^\s(){}\[\],;.λ]+", text))
    words |= set(TOKEN.findall(text))
    lines = []
    for line in uses:
        m = re.match(r"use ([^\s{]+?)\.\{(.*)\}$", line)
        if not m:
            lines.append(line)
            continue
        kept = []
        for item in m[2].split(","):
            item = item.strip()
            name = item.split(" as ")[-1]
            plain = name.replace("◌", "")
            if name in words or plain in words or (name == "[]" and "[]" in text) or ("◌" in name and all(p in text for p in name.split("◌") if p)):
                kept.append(item)
        if kept:
            lines.append(f"use {m[1]}.{{{', '.join(kept)}}}")
    return lines


def shorten(text):
    return re.sub(r"\n\n+", "\n\n", text).strip("\n") + "\n"


def turn(fn):
    source = open(os.path.join(fn.folder, "Proof.antt"), encoding="utf-8").read()
    uses, decls = blocks(source)
    uses = [u for u in uses if not re.search(r"\.(Statement\.\{statement\}|Tie as tie)$", u)]
    if "tie.close" not in source:
        return "no tie.close"
    texts = {d[1]: "\n".join(d[3]) for d in decls}
    spec = next((d for d in decls if "tie.close" in "\n".join(d[3])), None)
    call = "\n".join(spec[3])
    call = call[call.index("tie.close") + len("tie.close"):].strip()
    if not (call.startswith("(tie.spec") and call.endswith(")")):
        return "an unknown spec: " + call[:60]
    arguments = split_arguments(call[len("(tie.spec"):-1])
    invariants = [d for d in decls if re.search(r":\s*tie\.(invariant|decreases)", texts[d[1]].split("\n")[0])]
    inv_names = [d[1] for d in invariants]
    rest = [a for a in arguments if a not in inv_names]
    needs = fn.names["needs"]
    asked = fn.names["asked_at"]
    if len(rest) != len(needs):
        return f"{len(rest)} answers and {len(needs)} goals"
    goal_of, at_of, extra = {}, {}, []
    old_of = {new: old for old, new in needs}
    for arg, (old, new), place in zip(rest, needs, asked):
        at = fn.final(fn.index[place[0]])
        if re.fullmatch(NAME, arg) and arg in texts:
            if arg in goal_of:
                extra.append((new, at, f"{arg} c", ["c"]))
            else:
                goal_of[arg], at_of[arg] = new, at
        else:
            m = re.match(r"\(λ ([^.]*)\.\s*(.*)\)$", arg, re.S)
            if m:
                params, text = m[1].split(), m[2]
                if TACTIC.match(text.strip()) and not fn.keep:
                    continue
                extra.append((new, at, text, params))
            else:
                extra.append((new, at, arg + " c", ["c"]))
    taken = set(goal_of.values()) | {e[0] for e in extra}
    renamed = dict(goal_of)
    for d in decls:
        if d[1] not in goal_of and d[1] not in inv_names and d is not spec and d[1] in taken:
            renamed[d[1]] = d[1] + "-fact"

    def rename(text):
        return re.sub(r"(?<![\w'.₀-₉-])" + "(" + NAME + r")(?![\w'₀-₉-])", lambda m: renamed.get(m[1], m[1]), text)

    drop_inv = (lambda t: re.sub(r"(?<![\w'-])(" + "|".join(map(re.escape, inv_names)) + r")(?![\w'-])\s*", "", t)) if inv_names else (lambda t: t)

    aliases = {}
    for d in decls:
        m = re.search(r"=\s*tie\.([A-Z][\w'-]*)", texts[d[1]])
        if m and re.search(r": Type 0", d[3][0]) and norm(m[1]) in fn.byname:
            aliases[d[1]] = fn.settled(fn.byname[norm(m[1])])
    for d in decls:
        m = re.match(r"(?:pub |abbrev |unfoldable )*" + re.escape(d[1]) + r" : (?:\((" + NAME + r") : )?(?:tie\.([\w'-]+)|(" + NAME + r"))", texts[d[1]])
        if m and m[2] and norm(m[2]) in fn.byname:
            fn.helpers[d[1]] = fn.settled(fn.byname[norm(m[2])])
        elif m and m[3] in aliases:
            fn.helpers[d[1]] = aliases[m[3]]
    out = []
    for d in decls:
        comment, name, mods, lines = d
        if d is spec or name in inv_names:
            continue
        text = "\n".join(lines)
        if name in goal_of:
            new, at = goal_of[name], at_of[name]
            m = re.search(r"(?m)^" + re.escape(name) + r"((?: " + NAME + r"| _| \([^)]*\))*)\s*=\s*", text)
            if not m:
                fn.left.append(f"{fn.path}: no clause of {name}")
                continue
            params = m[1].split()
            unfolding = re.findall(r"(?m)^unfolding .*$", text)
            body = text[m.end():]
            params = [p for p in params if p != "κs"]
            root = params[0] if params else "c"
            body = fn.parted(new, old_of[new], fn.body(drop_inv(rename(body)), root, at, new))
            if TACTIC.match(body.strip()) and not fn.keep and not unfolding:
                continue
            block = "\n".join(comment + [f"pub {new} : goal.{new}"] + unfolding + [f"{new} {' '.join(params)} = {body}".replace("  =", " =")])
        else:
            head = text

            def typed(m):
                key = norm(m[1])
                if key not in fn.byname:
                    fn.left.append(f"{fn.path}: {name}: no place {m[1]}")
                    return m[0]
                return "goal." + fn.names["places_by_name"][fn.settled(fn.byname[key])]

            m = re.search(r"\((" + NAME + r") : tie\.([\w'-]+)", head)
            place, root = None, None
            if m and norm(m[2]) in fn.byname:
                place, root = fn.settled(fn.byname[norm(m[2])]), m[1]
            else:
                m = re.search(r"\((" + NAME + r") : (" + NAME + r")\)", head)
                if m and m[2] in aliases:
                    place, root = aliases[m[2]], m[1]
                elif name in fn.helpers:
                    m = re.search(r"(?m)^" + re.escape(name) + r" (" + NAME + r")", head)
                    if m:
                        place, root = fn.helpers[name], m[1]
            head = drop_inv(rename(head))
            head = re.sub(r"tie\.([A-Z][\w'-]*)", typed, head)
            head = re.sub(r"(goal\.[\w'-]+)\s+\)", r"\1)", head)
            if root:
                # the clause may give the record another name
                c = re.search(r"(?m)^" + re.escape(renamed.get(name, name)) + r" (" + NAME + r")", head)
                head = fn.body(head, root, place, None)
                if c and c[1] != root:
                    head = fn.body(head, c[1], place, None)
            block = "\n".join(comment + [head])
        out.append(block)
    for new, at, text, params in extra:
        params = [p for p in params if p != "κs"]
        root = params[0] if params else "c"
        text = fn.parted(new, old_of[new], fn.body(drop_inv(rename(text)), root, at, new))
        if TACTIC.match(text.strip()) and not fn.keep:
            continue
        out.append(f"pub {new} : goal.{new}\n{new} {' '.join(params)} = {text}")
    given = {}
    for block in out:
        m = re.search(r"(?m)^pub (\S+) : goal\.", block)
        if m:
            given[m[1]] = True
    for place in sorted(fn.asks):
        here = [(arg, new) for arg, (old, new), asked_place in zip(rest, needs, asked) if fn.final(fn.index[asked_place[0]]) == place]
        known = [new for arg, new in here if new in given]
        if not known:
            plain = [(arg, new) for arg, new in here if re.match(r"\(λ c( κs)?\. (search rules|omega arith)\)$", arg)]
            if plain:
                arg, new = plain[0]
                out.append(f"pub {new} : goal.{new}\n{new} c = {'search rules' if 'search' in arg else 'omega arith'}")
                known = [new]
        if known:
            out = [block.replace(f"⟪{place}⟫", known[0]) for block in out]
        else:
            fn.left.append(f"{fn.path}: no goal at {fn.names['places'][place][0]}, which a helper leads back from")
    module = f"Rattle.{fn.name}.proofs.{fn.path}"
    answers = "\n\n".join(out)
    if answers.strip():
        lines = used(uses, answers)
        answers = re.sub(r"\((?:not-false|not-true|not_false|not_true) _ (c\.[\w.'-]+\.(?:true|false))\)", r"\1", answers)
        if re.search(r"\bgoal\.", answers):
            lines.append(f"use {module}.Goals as goal")
        marked = set(re.findall(r"goal\.([\w'+-]+)", answers)) & set(fn.names["places_by_name"]) | set(re.findall(r"\(goal\.at\.[^()]*\)\.([\w'+-]+)", answers))
        if marked:
            lines.append(f"use {module}.Goals.{{{', '.join(sorted(marked))}}}")
        answers = shorten("\n".join(lines) + "\n\n" + answers)
    # the invariants
    loops = {}
    for (steps, variables), changed in zip(fn.names["loops"], fn.names["changed"]):
        loops[norm(steps[0])] = (steps[1], variables, changed)
    inv = []
    for d in invariants:
        text = "\n".join(d[3])
        m = re.match(r"(?:abbrev )?(?:pub )?(?:abbrev )?(" + NAME + r") : tie\.(invariant|decreases)-([\w'-]+)", text)
        kind, loop = m[2], norm(m[3])
        c = re.search(r"(?m)^" + re.escape(d[1]) + r"((?:\s+[^\s=]+)*)\s+=\s*", text)
        params, body = c[1].split(), text[c.end():]
        if loop in loops:
            new, variables, changed = loops[loop]
            fields = [(f"l.initial.{v}" if ch else f"l.{v}") for v, ch in zip(variables, changed)] + [f"l.{v}" for v, ch in zip(variables, changed) if ch]
            if len(fields) != len(params):
                fn.left.append(f"{fn.path}: {d[1]} has {len(params)} arguments for {fields}")
        else:
            new = m[3]
            fields = [f"l.{p}" for p in params]
            fn.left.append(f"{fn.path}: {d[1]} is no loop's")
        table = dict(zip(params, fields))
        table.pop("_", None)
        bound = set(re.findall(r"λ ([^.]*)\.", body)) | set(re.findall(r"\(((?:" + NAME + r" )+): ", body))
        bound = {w for b in bound for w in re.findall(NAME, b)} & set(table)
        if bound:
            fn.left.append(f"{fn.path}: {d[1]} binds {sorted(bound)} again")
        body = re.sub(r"(?<![\w'.₀-₉-])(" + NAME + r")(?![\w'₀-₉-])", lambda x: table.get(x[1], x[1]), body)
        body = re.sub(r"\(to_z w\d+ (l\.[\w.]+)\)", r"\1", body)
        inv.append("\n".join(d[0] + [f"abbrev pub {kind}-{new} : goal.{kind}-{new}", f"{kind}-{new} l = {body}"]))
    invs = "\n\n".join(inv)
    if invs:
        lines = used(uses, invs) + [f"use {module}.Given as goal"]
        invs = shorten("\n".join(lines) + "\n\n" + invs)
    os.remove(os.path.join(fn.folder, "Proof.antt"))
    for name, text in (("Answers.antt", answers), ("Invariants.antt", invs)):
        if text.strip():
            with open(os.path.join(fn.folder, name), "w", encoding="utf-8") as f:
                f.write(text)
    if not os.listdir(fn.folder):
        os.rmdir(fn.folder)
    return None


def main(crate, names, keep):
    crate = os.path.abspath(crate)
    table = json.load(open(names, encoding="utf-8"))
    known = clauses(os.path.dirname(crate))
    for path in sorted(glob.glob(os.path.join(crate, "proofs", "**", "Proof.antt"), recursive=True)):
        folder = os.path.dirname(path)
        where = os.path.relpath(folder, os.path.join(crate, "proofs")).replace(os.sep, ".")
        key = f"Rattle-{os.path.basename(crate)}-proofs.{where}.Lts"
        if key not in table:
            print(f"left: {os.path.basename(crate)}: {where}: not among the names")
            continue
        fn = Function(crate, folder, table[key], known, keep)
        said = turn(fn)
        if said:
            print(f"left: {fn.name}: {fn.path}: {said}")
        for l in fn.left:
            print(f"look: {fn.name}: {l}")


if __name__ == "__main__":
    if len(sys.argv) < 3:
        sys.exit(__doc__)
    main(sys.argv[1], sys.argv[2], "--all" in sys.argv)
