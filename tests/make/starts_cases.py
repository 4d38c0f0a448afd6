#!/usr/bin/env python3
"""Writes the input and the expected output of starts_cases: run it in any folder.

The second reader (tests/second_reader) fills each table, and halves it. Where a case below has a result beside it, 02-change-requests.md or a
reading of it in docs/DECISIONS.md gives that, and the second reader must give the same. The room and the entries behind those put are this script's own.
The first word of the command line, if there is one, is the second reader's program; else it is built.
"""
from stored import Second, count, field, hex_, padded, parts, text, write_cases

SECOND = Second()
FILE = SECOND.file

V = bytes(4)
P = field(0, hex_("03014101420143"))                # A, B and C; ends at 13
A = hex_("010400013000")                            # zone A, fixed, UTC; ends at 19
VP = V + P
UTC = VP + A
assert len(VP) == 13 and len(UTC) == 19
MIN, MAX = -9223372036854775808, 9223372036854775807
HOUR = 36 * 10**9

cases = {}


def found(table, instant):
    return SECOND.says("find", str(instant), *(str(start) for start in table)).decode()


def case(s, said=None, room=3, instant=0, id_=b"A", spelled=None):
    """A zone's table. said is a refusal or the list of starts, where the readings say so."""
    line = "zone %d %d %s %s" % (instant, room, id_.hex() or "-", spelled or s.hex() or "-")
    if line not in cases:
        with open(FILE, "wb") as f:
            f.write(s)
        words = SECOND.says("starts", FILE, id_, str(room)).decode().split(" ")
        # number and place, or 0 and how many; then the lent table, all 7 before
        starts = words[2:] if words[0] == "0" else []
        assert said is None or (starts == [str(start) for start in said] if isinstance(said, list) else " ".join(words) == said), (line[:200], words)
        table = starts + ["7"] * (room - len(starts))
        shown = table if room <= 16 else table[:8] + [".."] + table[-8:]
        cases[line] = " ".join(words[:2] + shown) + (", " + found(starts, instant) if starts else "")


def halve(table, instant, said=None):
    """A table alone. said is the number of the entry left and how many were looked at."""
    line = " ".join(["halve", str(instant)] + [str(start) for start in table])
    cases[line] = found(table, instant)
    assert said is None or cases[line] == said, (line, cases[line], said)


def ticks(t):
    """An instant as a transition, in ticks."""
    return b"\x02" + t.to_bytes(8, "big", signed=True)


def listed(*starts, end=b"\x01", tail=b"\x00"):
    """A zone whose intervals start at these instants, behind one from start of time."""
    return b"\x00\x02" + count(1 + len(starts)) + hex_("00" "003030") + b"".join(ticks(t) + hex_("003030") for t in starts) + end + tail


def zone(data):
    return VP + field(1, data)


TAIL = hex_("01" "32" "01" "1c0a0132" "02" "1c030132" "32")

# ---- listed starts: start of time as the lowest number, the tail's start is none [14.20, 14.21]

TAILED = VP + hex_("011d" "00020100003030" "020000000000000000" "01" "32" "01" "1c0a0132" "02" "1c030132" "32")
assert TAILED == zone(listed(end=ticks(0), tail=TAIL))
for instant in (MIN, -1, 0, 1, MAX):
    case(TAILED, [MIN], instant=instant)
case(UTC, [MIN])
case(UTC, [MIN], 1, MIN)
case(zone(b"\x00\x01\x30"), [MIN])                  # a fixed zone without a name
case(zone(listed()), [MIN])
LIST = zone(listed(-20, 0, 10))
for instant in (MIN, -21, -20, -1, 0, 9, 10, MAX):
    case(LIST, [MIN, -20, 0, 10], 5, instant)
case(zone(listed(-20, 0, end=ticks(10), tail=TAIL)), [MIN, -20, 0], 4, 10)
# the list ends at the last tick of 9999, and starts at the first of year 1
FIRST, LAST = -621355968000000000, 2534023007999999999
case(zone(listed(FIRST, LAST)), [MIN, FIRST, LAST], 3, LAST)
# forms: hours since the interval before, minutes since 1800, ticks
case(zone(b"\x00\x02\x04" + hex_("00" "003030") + ticks(0) + hex_("003030") + hex_("8001" "003030") + hex_("80c2d72f" "003030" "01" "00")),
     [MIN, 0, 128 * HOUR, 6353376000000000], 6, 128 * HOUR)

# ---- room: 15 exactly if the table is too short, and later entries as found [14.21]

case(UTC, "15 0", 0)
for room in range(8):
    case(LIST, [MIN, -20, 0, 10] if room >= 4 else "15 0", room)
case(LIST, [MIN, -20, 0, 10], 17)
case(UTC, "12 19", 0, id_=b"C")

# ---- a question's refusals come first, 14 never: no instant is asked

for instant in (MIN, MAX):
    case(VP, "12 13", 0, instant)
case(b"", "2 0", 0)
case(UTC, "12 19", id_=b"")
case(UTC + A, "12 25", id_=b"B")
case(UTC + hex_("0303" "010100"), "12 19", id_=b"B")               # no aliases
case(UTC + b"\x00", [MIN])                                          # damage behind the zone isn't seen
case(UTC + b"\x00", "5 19", id_=b"B")
case(UTC + field(1, listed(0)), [MIN])                              # a second zone of the ID isn't reached
for s, said in (
    (VP[:3], "2 0"), (VP[:12], "2 4"), (UTC[:14], "2 13"), (UTC[:18], "2 13"),
    (b"\x00\x00\x00\x01" + UTC[4:], "3 0"), (V, "12 4"), (V + A, "6 4"), (V + field(0, count(8193)), "4 4"), (VP + hex_("01" "80808002"), "4 13"),
    (VP + P + A, "5 13"), (VP + b"\x01" + b"\x80" * 5, "7 13"), (V + hex_("0003" "018000"), "7 4"), (V + hex_("0003" "0101ff") + A, "8 4"),
    (zone(b""), "9 13"), (zone(b"\x00\x03\x30\x00"), "9 13"), (zone(b"\x80\x00\x01\x30\x00"), "7 13"), (zone(b"\x03\x01\x30\x00"), "8 13"),
    (zone(b"\x00\x01\x00\x00"), "7 13"), (zone(b"\x00\x01\x30\x03"), "8 13"), (zone(b"\x00\x01\x30\x00\x00"), "9 13"), (zone(b"\x00\x02\x00"), "10 13"),
    (zone(b"\x00\x02" + count(4097)), "4 13"), (zone(listed(0, 0)), "10 13"), (zone(listed(0, tail=b"\x02")), "9 13"), (zone(listed(0) + b"\x00"), "9 13"),
    (zone(listed(end=ticks(0), tail=hex_("01" "3200" "1c0d0132" "00" "1c0a0132" "32"))), "11 13"),
    (VP + hex_("0104" "01013003") + A, "8 13"),
):
    case(s, said, 1)
# what stands behind the last start is read too: no room doesn't hide its fault
case(zone(listed(0, 10, tail=b"\x02")), "9 13", 1)
# sizes with zero groups behind them (02, Ask 6)
case(V + b"\x00" + padded(7, 5) + P[2:] + b"\x01" + padded(4, 2) + A[2:], [MIN])
# a pool of more strings than the short index has
BIG = V + field(0, count(300) + b"".join(text("%03d" % k) for k in range(300))) + field(1, count(299) + listed(0)[1:])
case(BIG, [MIN, 0], id_=b"299")
case(BIG, "12 %d" % len(BIG), id_=b"298")

# ---- the most intervals, 128 hours each from the second on

front = VP + b"\x01" + count(1 + 1 + 2 + 4 + 12 + 5 * 4094 + 2) + b"\x00\x02" + count(4096) + hex_("00" "003030") + ticks(0) + hex_("003030")
UNIT = hex_("8001" "003030")
MOST, STARTS = front + UNIT * 4094 + b"\x01\x00", [MIN] + [128 * HOUR * k for k in range(4095)]
for room, instant in ((4096, 0), (4096, 2000 * 128 * HOUR - 1), (4100, MAX), (4096, -1)):
    case(MOST, STARTS, room, instant, spelled=parts(front, UNIT, 4094, b"\x01\x00"))
case(MOST, "15 0", 4095, spelled=parts(front, UNIT, 4094, b"\x01\x00"))

# ---- halving, to the letter [14.22]

halve((), 0, "12 0")
for instant in (MIN, 4, 5, 6, MAX):
    halve((5,), instant, "0 0 0")
halve((1, 2, 3), 0, "0 0 1")
halve((1, 2, 3), 2, "0 1 2")
halve((9, 1, 9, 1), 5, "0 1 2")
halve((5, 5, 5, 5), 5, "0 3 2")
halve((5, 5, 5, 5), 4, "0 0 2")
halve((1, 2, 3), 1)
halve((1, 2, 3), 3)
halve((2, 1), 1, "0 1 1")
halve((2, 1), 0, "0 0 1")
# any 64-bit instant: no 14
for instant in (MIN, MIN + 1, -1, 0, MAX - 1, MAX):
    halve((MIN, 0, MAX), instant)
for instant in range(0, 15):
    halve(range(1, 14), instant)
halve((3, 1, 2, 9, 4, 4, 8, 0, 7), 4)
halve((7, 6, 5, 4, 3, 2, 1), 4)
for n in (31, 32, 33, 63):
    halve([2 * k for k in range(n)], 2 * n - 3)
    halve([2 * k for k in range(n)], 1)

write_cases("starts_cases", cases.items())
