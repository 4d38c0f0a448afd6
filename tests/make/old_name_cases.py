#!/usr/bin/env python3
"""Writes the input and the expected output of old_name_cases: run it in any folder.

The second reader (tests/second_reader) answers each named question over an older dictionary, under both editions. Where a case below has a result beside it, 02-change-requests.md
or a reading of it in docs/DECISIONS.md gives that, and the second reader must give the same.
The first word of the command line, if there is one, is the second reader's program; else it is built.
"""
import os

from stored import Second, but_name, count, field, hex_, text, write_cases

SECOND = Second()
FILE = SECOND.file
OLDER = os.path.join(os.path.dirname(FILE), "older")

V = bytes(4)
FIRST, LAST = -621355968000000000, 2534023007999999999
POOL = field(0, count(3) + text("A") + text("B") + text("C"))
ZONE = field(1, hex_("00013000"))
GOOD = V + POOL + ZONE
assert len(V + POOL) == 13 and len(GOOD) == 19


def string(s):
    """An older string of at most 14 bytes."""
    return bytes([0xF0 + len(s)]) + s


def older(*pairs):
    """An older dictionary of at most 14 pairs."""
    return bytes([0xF0 + len(pairs)]) + b"".join(string(key) + string(value) for key, value in pairs)


cases = {}


def named(name, ticks, edition):
    answer = SECOND.says("named-old", FILE, OLDER, name, str(ticks), edition)
    if not answer.startswith(b"0 "):
        return answer.decode()
    values, shown = answer.split(b" ", 6)[:6], answer.split(b" ", 6)[6]
    return b" ".join(values).decode() + " " + (shown.hex() or "-")


def case(s, d, name, said=None, ticks=0, first=None):
    """One line: the file s, the older dictionary d, and what is given under edition 2 and under edition 1, where that is said."""
    line = "%d %s %s %s" % (ticks, name.hex() or "-", d.hex() or "-", s.hex() or "-")
    if line not in cases:
        for path, held in (FILE, s), (OLDER, d):
            with open(path, "wb") as f:
                f.write(held)
        cases[line] = named(name, ticks, "2"), named(name, ticks, "1")
        assert but_name(cases[line][0]) == but_name(cases[line][1])
    for given, wanted in zip(cases[line], (said, first)):
        assert wanted is None or given == wanted, (line[:200], given, wanted)


A = "0 0 0 0 start end 41"

# ---- the worked readings: entries that name themselves, a name that is no key, faults first, what follows, no bytes

case(GOOD, hex_("f1f158f158"), b"X", "18 0")
case(GOOD, hex_("f1f158f159"), b"X", "12 0")
case(GOOD, hex_("f1f158f141"), b"Q", "12 0")
case(GOOD, hex_("f2f158f141f1ff"), b"X", "8 0")
case(GOOD, hex_("f1f158f141ff"), b"X", A)
case(GOOD, b"", b"A", A)
case(GOOD, b"", b"X", "9 0")
case(GOOD, hex_("f1f141f142"), b"A", A)

# ---- 14, then the file's check, before a zone's ID

case(GOOD + b"\x00", hex_("f1f158f141"), b"A", "5 19")
case(GOOD + b"\x00", b"", b"X", "5 19")
for ticks in FIRST - 1, LAST + 1, -9223372036854775808, 9223372036854775807:
    for s in GOOD + b"\x00", b"", GOOD:
        case(s, hex_("f1f158f141"), b"A", "14 0", ticks)
for ticks in FIRST, LAST:
    case(GOOD, hex_("f1f158f141"), b"X", A, ticks)
for k in range(len(GOOD)):
    case(GOOD[:k], hex_("f1f158f141"), b"A")
    case(GOOD[:k], b"", b"X")

# ---- the file's own field 3 is checked and not used; fields 6 and 7 are checked

case(GOOD + field(3, hex_("010100")), hex_("f0"), b"B", "12 0")
case(GOOD + field(3, hex_("010103")), hex_("f1f158f141"), b"A", "8 19")
case(GOOD + field(3, hex_("010100")), hex_("f1f142f143"), b"B", "12 0")
case(GOOD + field(3, hex_("010200")), hex_("f1f142f143"), b"B", "12 0")
case(GOOD + field(6, hex_("01")), hex_("f1f158f141"), b"A", "9 19")

# ---- the dictionary's faults, left to right

for data, number in (
    ("f1", 9), ("00", 9), ("ff7fffffff", 9), ("ff80000000", 7), ("ff1020408e", 7), ("f1f1", 9), ("f1f158", 9), ("f1f158f1", 9), ("f18372", 4), ("f1f1588372", 4),
    ("f1f1fff0", 8), ("f1f158f1ff", 8), ("f2f158f141f158", 19), ("f2f158f141f1588372", 19), ("f3f158f141f159f141f158f141", 19), ("f3f159f141f158f141f159f141", 19), ("f2f0f0f0f0", 19),
):
    case(GOOD, hex_(data), b"X", "%d 0" % number)
    case(GOOD, hex_(data), b"A", A)

# ---- eight steps, zones before keys, the empty name

LETTERS = [bytes([c]) for c in b"abcdefghij"]
for pairs in 1, 2, 7, 8, 9:
    for last in b"A", b"a", b"z":
        d = older(*[(LETTERS[i], LETTERS[i + 1]) for i in range(pairs - 1)], (LETTERS[pairs - 1], last))
        for name in b"a", b"b", b"h", b"i":
            case(GOOD, d, name)
CHAIN = [(LETTERS[i], LETTERS[i + 1]) for i in range(7)]
case(GOOD, older(*CHAIN, (b"h", b"A")), b"a", A)
case(GOOD, older(*CHAIN, (b"h", b"i"), (b"i", b"A")), b"a", "18 0")
case(GOOD, older(*CHAIN, (b"h", b"i"), (b"i", b"A")), b"b", A)
case(GOOD, older(*CHAIN, (b"h", b"i")), b"a", "12 0")
case(GOOD, older((b"B", b"A"), (b"A", b"C")), b"B", A)
case(GOOD, older((b"B", b"C"), (b"C", b"B")), b"B", "18 0")
case(GOOD, older((b"", b"A")), b"", A)
case(GOOD, older((b"X", b"")), b"X", "12 0")

# ---- keys in order, and not

for keys in [b"a", b"b", b"c"], [b"c", b"b", b"a"], [b"b", b"a", b"c"], [b"b", b"c", b"a"], [b"", b"a", b"\xc3\xa9"], [b"ab", b"a", b"abc"]:
    for twice in keys:
        d = older(*[(key, b"A") for key in keys + [twice]])
        case(GOOD, d, keys[0], "19 0")
    for key in keys:
        case(GOOD, older(*[(key, b"A") for key in keys]), key, A)

# ---- a fixed zone's name, which edition 1 doesn't show

NAMED = V + POOL + field(1, hex_("00013002"))
for name in b"A", b"X":
    case(NAMED, hex_("f1f158f141"), name, "0 0 0 0 start end 43", first=A)
case(V + POOL + field(1, hex_("00013003")), hex_("f1f158f141"), b"X", "8 13", first="8 13")
case(V + POOL + field(1, hex_("00020100023030" "0100")), hex_("f1f158f141"), b"X", "0 0 0 0 start end 43", first="0 0 0 0 start end 43")

write_cases("old_name_cases", [(line, " | ".join(said)) for line, said in cases.items()])
