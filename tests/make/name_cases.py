#!/usr/bin/env python3
"""Writes the input and the expected output of name_cases: run it in any folder.

The second reader (tests/second_reader) answers each named question, with more to come and as all there is, the latter under both editions, and checks the file. Where a case below
has results beside it, 02-change-requests.md or a reading of it in docs/DECISIONS.md gives them, and the second reader must give the same.
The first word of the command line, if there is one, is the second reader's program; else it is built.
"""
from stored import Second, but_name, count, field, hex_, parts, text, write_cases

SECOND = Second()
FILE = SECOND.file

V = bytes(4)
FIRST, LAST = -621355968000000000, 2534023007999999999


# ---- fields

def pool(*strings):
    return field(0, count(len(strings)) + b"".join(text(s) for s in strings))


def zone(id_, ms_code=b"\x30"):
    """A fixed zone without a name."""
    return field(1, count(id_) + b"\x01" + ms_code)


def aliases(*pairs):
    return count(len(pairs)) + b"".join(count(key) + count(target) for key, target in pairs)


# ---- cases: a line of the input, and what is written for it

cases = {}


def named(name, ticks, mark, edition="2"):
    said = SECOND.says("named", FILE, name, str(ticks), mark, edition)
    if not said.startswith(b"0 "):
        return said.decode()
    values, shown = said.split(b" ", 6)[:6], said.split(b" ", 6)[6]
    return b" ".join(values).decode() + " " + (shown.hex() or "-")


def case(s, name, more=None, all_=None, checked=None, ticks=0, spelled=None, first=None):
    """One line. more, all_ and checked are what the question under both marks and the check give, and first what the question gives under edition 1,
    where they are said. Nothing but a name differs under it."""
    line = "%d %s %s" % (ticks, name.hex() or "-", spelled or s.hex() or "-")
    if line not in cases:
        with open(FILE, "wb") as f:
            f.write(s)
        cases[line] = (named(name, ticks, "part"), named(name, ticks, "all"), named(name, ticks, "all", "1"), SECOND.says("check", FILE).decode())
        assert but_name(cases[line][1]) == but_name(cases[line][2]), line[:200]
    for said, wanted in zip(cases[line], (more, all_, first, checked)):
        assert wanted is None or said == wanted, (line[:200], said, wanted)


def both(s, name, said, checked=None, **more):
    case(s, name, said, said, checked, **more)


A = "0 0 0 0 start end 41"
ONE = V + pool(b"A") + zone(0)
TWO = V + pool(b"A", b"B") + zone(0)
THREE = V + pool(b"A", b"B", b"C") + zone(0)
assert ONE == hex_("00000000" "0003010141" "0103000130") and len(TWO) == 16 and len(THREE) == 18

# ---- "'no such zone' is given once an ID above 3 has begun"

both(ONE + b"\x04", b"B", "12 14")
case(ONE + b"\x02", b"B", "1 14", "2 14")
case(ONE, b"B", "1 14", "12 14")
case(ONE + field(2, b"\x00"), b"B", "1 17", "12 17")
both(V + b"\x04", b"B", "6 4")
for i in (4, 5, 8, 255):
    both(TWO + bytes([i]), b"B", "12 16")
    both(TWO + bytes([i]), b"A", A)

# ---- a zone's ID needs neither field 2 nor field 3

for more in (b"", b"\x03\x00", b"\x03", b"\x02", b"\x02\x80", field(2, b"\x01\xff"), field(3, aliases((0, 1))), field(3, b"\xff"), b"\x00"):
    both(TWO + more, b"A", A)

# ---- "Field 2 is checked on the way"

for data, number in ((b"\x01\xff", 8), (b"", 9), (b"\x01", 9), (b"\x00\x00", 9), (b"\x80\x00", 7), (count(1025) + bytes(1025), 4)):
    said = "%d 16" % number
    both(TWO + field(2, data) + field(3, aliases((1, 0))), b"B", said, said)
    both(TWO + field(2, data) + b"\x04", b"C", said)
both(TWO + field(2, b"\x012") + field(3, aliases((1, 0))), b"B", A, "0 0")

# ---- a name that is neither a zone's ID nor a key: at once, at field 3's ID byte

both(TWO + field(3, b"\x00"), b"B", "12 16", "0 0")
both(TWO + field(3, b"\x00") + b"\x04", b"B", "12 16")
case(TWO + b"\x03\x02\x00", b"B", "1 16", "2 16")

# ---- faults of field 3 come before an answer, 18 and 12

both(TWO + field(3, aliases((1, 0)) + b"\xff"), b"B", "9 16", "9 16")
both(TWO + field(3, b"\x02\x01\x00\x01\x05"), b"B", "19 16", "19 16")
for data, number in (
    (b"", 9), (b"\x80", 9), (b"\x80\x00", 7), (b"\x01", 9), (b"\x01\x01", 9), (b"\x01\x02\x00", 8), (b"\x01\x01\x02", 8), (b"\x01\x80\x00\x00", 7),
    (b"\x01\x01\x80\x00", 7), (b"\xff\xff\xff\xff\x07", 9), (b"\x00\x00", 9),
    # "19 at the second of two equal keys": before its target's code, a shortage and leftovers
    (b"\x02\x01\x00\x01", 19), (b"\x02\x01\x00\x01\x07", 19), (b"\x02\x01\x00\x01\x80\x00", 19), (b"\x02\x01\x00\x01\x00\x00", 19),
    (b"\x02\x01\x00\x07", 8), (b"\xff\xff\xff\xff\x07\x01\x00\x01\x00", 19), (b"\x02\x00\x01\x00\x01", 19),
):
    said = "%d 16" % number
    both(TWO + field(3, data), b"B", said, said)
# equal by their bytes, whatever the pool numbers
both(V + pool(b"A", b"B", b"B") + zone(0) + field(3, aliases((1, 0), (2, 0))), b"B", "19 18", "19 18")
both(V + pool(b"A", b"B", b"A") + zone(0) + field(3, aliases((1, 2))), b"B", A, "0 0")

# ---- "eight steps at most"

LETTERS = [bytes([c]) for c in b"Aabcdefghij"]


def chain(pairs, last):
    """a to b to c and so on over that many pairs, the last to a string by its number."""
    strings = LETTERS[:10] if max(pairs, last) < 10 else LETTERS
    return V + pool(*strings) + zone(0) + field(3, aliases(*[(i, i + 1) for i in range(1, pairs)], (pairs, last)))


assert chain(8, 0) == hex_("00000000" "00150A0141016101620163016401650166016701680169" "0103000130" "031108" "01020203030404050506060707080800")
both(chain(8, 0), b"a", A, "0 0")
both(chain(9, 0), b"a", "18 32", "0 0")
both(chain(9, 0), b"b", A)
both(chain(8, 9), b"a", "12 32", "0 0")
both(chain(9, 10), b"a", "18 34", "0 0")
both(chain(9, 10), b"b", "12 34")
for pairs in (1, 2, 7, 8, 9):
    for last in (0, 9, 1):
        for name in (b"a", b"b", b"h", b"i"):
            case(chain(pairs, last), name)

# ---- a circle is 18; an unknown target 12

both(TWO + field(3, aliases((1, 1))), b"B", "18 16", "0 0")
both(THREE + field(3, aliases((1, 2), (2, 1))), b"B", "18 18", "0 0")
both(THREE + field(3, aliases((1, 2))), b"B", "12 18", "0 0")
both(THREE + field(3, aliases((1, 3))), b"B", "8 18", "8 18")

# ---- "A canonical ID wins", at each step

both(THREE + field(3, aliases((1, 0), (0, 2))), b"B", A, "0 0")
both(THREE + field(3, aliases((0, 2), (1, 0))), b"A", A)

# ---- the answer is the zone's; the first zone of an ID answers, and every zone before field 3 is checked

both(TWO + field(3, aliases((1, 0))), b"B", A, "0 0")
both(V + pool(b"A", b"B") + zone(0, b"\x32") + zone(0, b"\x34") + field(3, aliases((1, 0))), b"B", "0 3600000 0 3600000 start end 41", "13 16")
both(V + pool(b"A", b"B") + zone(0, b"\x32") + field(1, b"\x01\x03") + field(3, aliases((1, 0))), b"B", "9 16", "9 16")
both(V + pool(b"A", b"B", b"C") + zone(2) + field(1, b"\x00\x01\x30\x02") + field(3, aliases((1, 0))), b"B", "0 0 0 0 start end 43", "0 0")

# ---- Ask 11: under edition 1 a fixed zone's name is its ID, through an alias the target's; faults of the name stay

SHOWN = hex_("00000000" "0007" "03014101420143" "0104" "00013002" "0303" "010100")
both(SHOWN, b"B", "0 0 0 0 start end 43", "0 0", first=A)
both(SHOWN, b"A", "0 0 0 0 start end 43", "0 0", first=A)
both(SHOWN, b"C", "12 19", first="12 19")
both(V + pool(b"A", b"B", b"C") + field(1, b"\x00\x01\x30\x03") + field(3, aliases((1, 0))), b"B", "8 13", first="8 13")
both(V + pool(b"A", b"B", b"C") + field(1, hex_("00020100023030" "0100")) + field(3, aliases((1, 0))), b"B", "0 0 0 0 start end 43", first="0 0 0 0 start end 43")

# ---- "an alias is 'not yet' until field 3 is whole"

WHOLE = TWO + field(2, b"\x012") + field(3, aliases((1, 0))) + field(8, b"\x00")
for k in range(len(WHOLE) + 1):
    for name in (b"A", b"B", b"C"):
        case(WHOLE[:k], name)
case(WHOLE[:24], b"B", "1 20", "2 20")
case(TWO + b"\x03\x80\x80\x80\x80\x80", b"B", "7 16", "7 16")
case(TWO + b"\x03\x06\x02\x01\x00\x01", b"B", "1 16", "2 16")

# ---- field 3 without data or pairs; the empty name; the instant

both(V + pool() + field(3, b"\x00"), b"A", "12 7", "0 0")
both(V + pool() + field(3, b""), b"A", "9 7", "9 7")
both(V + pool(b"A", b"") + zone(0) + field(3, aliases((1, 0))), b"", A, "0 0")
both(TWO + field(3, b"\x02\x01\x00\x01\x00") + b"\x03", b"A", A, "19 16")
for ticks in (FIRST, LAST):
    both(TWO + field(3, aliases((1, 0))), b"B", A, ticks=ticks)
for ticks in (FIRST - 1, LAST + 1, -9223372036854775808, 9223372036854775807):
    for s in (TWO + field(3, aliases((1, 0))), b"", b"\x01"):
        both(s, b"B", "14 0", ticks=ticks)

# ---- more strings than the short index holds, and as many pairs

for n in (256, 257):
    names = [b"%02x" % i for i in range(n)]
    pairs = [(i, i + 1 if i % 8 else 0) for i in range(1, n - 1)]
    s = V + pool(*names) + zone(0) + field(3, aliases(*pairs))
    size = len(s) // 3 + 1
    spelled = parts(s[:size], s[size:2 * size], 1, s[2 * size:])
    for name in (names[0], names[1], names[9], names[-1]):
        case(s, name, spelled=spelled)

write_cases("name_cases", [(line, " | ".join(said)) for line, said in cases.items()])
