#!/usr/bin/env python3
"""Writes the input and the expected output of difference_cases: run it in any folder.

The second reader (tests/second_reader) lists the stretches. Where a case below has a result beside it, 02-change-requests.md or a reading of it in
docs/DECISIONS.md gives that, and the second reader must give the same. The room and the numbers behind the stretches are this script's own.
The first word of the command line, if there is one, is the second reader's program; else it is built.
"""
import os

from stored import Second, count, field, hex_, offset, padded, parts, signed, text, write_cases

SECOND = Second()
ONE, TWO = (os.path.join(SECOND.folder.name, name) for name in ("one.nzd", "two.nzd"))

V = bytes(4)
P = field(0, hex_("03014101420143"))                # A, B and C; ends at 13
A = hex_("010400013000")                            # zone A, fixed, UTC, named A; ends at 19
VP = V + P
UTC = VP + A
AHEAD = VP + hex_("0104" "00013200")                # the same an hour ahead
assert len(VP) == 13 and len(UTC) == 19
FIRST, LAST = -621355968000000000, 2534023007999999999
MIN, MAX = -9223372036854775808, 9223372036854775807
SECONDS, HOUR, HOURS = 10**7, 36 * 10**9, 3600000    # an hour in ticks, and in milliseconds

cases = {}


def case(one, two, first, last, said=None, room=4, id_=b"A", spelled=None):
    """One line. said is a refusal or the list of stretches, where the papers or the readings say so."""
    line = "%d %d %d %s %s %s" % (first, last, room, id_.hex() or "-", one.hex() or "-", spelled or two.hex() or "-")
    if line not in cases:
        for path, held in (ONE, one), (TWO, two):
            with open(path, "wb") as f:
                f.write(held)
        words = SECOND.says("difference", ONE, TWO, id_, str(first), str(last), str(room // 2)).decode().split(" ")
        # number and place, or 0 and how many; then the lent list, all 7 before
        numbers = words[2:] if words[0] == "0" else []
        cases[line] = " ".join(words[:2] + numbers + ["7"] * (room - len(numbers)))
    if isinstance(said, list):
        numbers = [n for stretch in said for n in stretch]
        said = "0 %d" % len(said) + "".join(" %d" % n for n in numbers + [7] * (room - len(numbers)))
    elif said:
        said += " 7" * room
    assert said is None or cases[line] == said, (line[:200], cases[line], said)


def both(one, two, first, last, said=None, room=4, id_=b"A"):
    """Whichever file is the first, the stretches are the same."""
    case(one, two, first, last, said, room, id_)
    case(two, one, first, last, said, room, id_)


def ticks(t):
    """An instant as a transition, in ticks."""
    return b"\x02" + t.to_bytes(8, "big", signed=True)


def listed(intervals, end=b"\x01", tail=b"\x00", id_=0):
    """A zone of intervals (start, name, wall offset, savings)."""
    data = count(id_) + b"\x02" + count(len(intervals))
    return data + b"".join(start + count(name) + offset(wall) + offset(savings) for start, name, wall, savings in intervals) + end + tail


def zone(data):
    return VP + field(1, data)


START = b"\x00"

# ---- the window: both ticks in range, its last out [14.1]

case(UTC, AHEAD, LAST, LAST + 1, "14 0")
case(UTC, AHEAD, FIRST - 1, 0, "14 0")
case(UTC, AHEAD, MIN, MAX, "14 0")
case(UTC, AHEAD, 0, MAX, "14 0")
case(UTC, AHEAD, FIRST, LAST, [(FIRST, LAST)])
case(UTC, AHEAD, LAST - 1, LAST, [(LAST - 1, LAST)])
case(UTC, AHEAD, LAST, LAST, [])
# 14 comes before the files' refusals and before 15
case(b"", b"", MIN, 0, "14 0")
case(b"", b"", 0, LAST + 1, "14 0")
case(b"", b"", 0, 0, "2 0")
case(UTC, AHEAD, FIRST, LAST + 1, "14 0", 0)

# ---- a window without an instant, after both files' refusals [14.2]

case(UTC, AHEAD, 5, 5, [])
case(UTC, AHEAD, 6, 5, [])
case(UTC, AHEAD, LAST, FIRST, [], 0)
case(UTC, AHEAD, 6, 5, "12 19", id_=b"C")
case(UTC, VP, 6, 5, "12 13")

# ---- a stretch runs on where the kind of difference changes: to tick 10 the offset, to 20 the name [14.3]

KINDS = VP + hex_("0121" "00020300003230" "02000000000000000a" "013030" "020000000000000014" "0030300100")
both(UTC, KINDS, 0, 30, [(0, 20)])
case(UTC, KINDS, 5, 12, [(5, 12)])
case(UTC, KINDS, 20, 30, [])
case(UTC, KINDS, 19, 30, [(19, 20)])
case(UTC, KINDS, 9, 10, [(9, 10)])
case(UTC, KINDS, FIRST, LAST, [(FIRST, 20)])
# savings alone, with one wall offset; and from tick 10 the wall offset alone
SAVINGS = zone(listed([(START, 0, 0, HOURS), (ticks(10), 0, HOURS, 0)]))
both(UTC, SAVINGS, 0, 30, [(0, 30)])
case(UTC, zone(listed([(START, 0, 0, HOURS), (ticks(10), 0, 0, 0)])), 0, 30, [(0, 10)])
# a millisecond, and offsets that differ in the sign alone
case(UTC, VP + field(1, b"\x00\x01" + offset(1) + b"\x00"), 0, 1, [(0, 1)])
case(AHEAD, VP + field(1, b"\x00\x01" + offset(-HOURS) + b"\x00"), 0, 1, [(0, 1)])

# ---- bounds of intervals aren't compared [14.4]

case(UTC, VP + hex_("0109" "000201000030300100"), FIRST, LAST, [])
case(UTC, zone(listed([(START, 0, 0, 0), (ticks(10), 0, 0, 0), (ticks(20), 0, 0, 0)])), 0, 30, [])
case(UTC, UTC, FIRST, LAST, [], 0)
case(KINDS, KINDS, FIRST, LAST, [], 0)

# ---- a zone that a file lacks: 12 in the file that refuses, the first file's first [14.5]

case(VP, VP, 0, 1, "12 13")
case(UTC, VP, 0, 1, "12 13")
case(VP, UTC, 0, 1, "12 13")
case(UTC, UTC + A, 0, 1, "12 19", id_=b"B")
case(UTC + A, UTC, 0, 1, "12 25", id_=b"B")
case(VP, b"", 0, 1, "12 13")
case(UTC, b"", 0, 1, "2 0")
case(b"", VP, 0, 1, "2 0")
case(UTC, AHEAD, 0, 1, "12 19", id_=b"")
case(UTC, AHEAD, 0, 1, "12 19", id_=b"\xff")
# no aliases: field 3 leads B to A
ALIAS = UTC + hex_("0303" "010100")
case(ALIAS, ALIAS, 0, 1, "12 19", id_=b"B")

# ---- a question's refusals: what stands behind the zone isn't seen [14.6]

case(UTC, AHEAD + b"\x00", 0, 1, [(0, 1)])
case(UTC + b"\x01\x80", AHEAD + field(1, b"\xff"), 0, 1, [(0, 1)])
case(UTC + A, AHEAD + A, 0, 1, [(0, 1)])            # a second zone of the ID isn't reached
case(AHEAD + b"\x00", UTC, 0, 1, "5 19", id_=b"B")

# each refusal, of the first file and of the second, before 15
for s, said in (
    (VP[:3], "2 0"), (VP[:12], "2 4"), (UTC[:14], "2 13"), (UTC[:18], "2 13"),
    (b"\x00\x00\x00\x01" + UTC[4:], "3 0"), (V, "12 4"), (V + A, "6 4"), (V + field(0, count(8193)), "4 4"), (VP + hex_("01" "80808002"), "4 13"),
    (VP + P + A, "5 13"), (VP + b"\x01" + b"\x80" * 5, "7 13"), (V + hex_("00" "87808080808000"), "7 4"), (V + hex_("0003" "018000"), "7 4"),
    (V + hex_("0003" "010241"), "9 4"), (V + hex_("0003" "0101ff") + A, "8 4"),
    (zone(b""), "9 13"), (zone(b"\x00\x03\x30\x00"), "9 13"), (zone(b"\x80\x00\x01\x30\x00"), "7 13"), (zone(b"\x03\x01\x30\x00"), "8 13"),
    (zone(b"\x00\x01\x00\x00"), "7 13"), (zone(b"\x00\x01\x30\x03"), "8 13"), (zone(b"\x00\x01\x30\x00\x00"), "9 13"), (zone(b"\x00\x02\x00"), "10 13"),
    (zone(b"\x00\x02" + count(4097)), "4 13"), (zone(listed([(START, 0, 0, 0), (b"\x01", 0, 0, 0)])), "10 13"),
    (zone(listed([(START, 0, 0, 0)], ticks(0), hex_("01" "3200" "1c0d0132" "00" "1c0a0132" "32"))), "11 13"),
    (VP + hex_("0104" "01013003") + A, "8 13"),
):
    case(s, AHEAD, 0, 1, said, 0)
    case(UTC, s, 0, 1, said, 2)
case(UTC[:14], VP + P + A, 0, 1, "2 13")
case(VP + P + A, UTC[:14], 0, 1, "5 13")
# sizes with zero groups behind them (02, Ask 6)
PADDED = V + b"\x00" + padded(7, 5) + P[2:] + b"\x01" + padded(4, 2) + hex_("00013200")
both(UTC, PADDED, 0, 1, [(0, 1)])
case(UTC, PADDED, 5, 4, [])
case(UTC, PADDED, 0, 1, "12 19", id_=b"C")
case(PADDED, UTC, 0, 1, "12 24", id_=b"C")

# ---- room, in numbers; a stretch takes two. Before tick 10 and from tick 20 on they differ [14.7, 14.9]

APART = VP + hex_("0121" "00020300003230" "02000000000000000a" "003030" "020000000000000014" "0032300100")
for room in range(8):
    case(UTC, APART, 0, 30, [(0, 10), (20, 30)] if room >= 4 else "15 0", room)
for room in range(4):
    case(UTC, APART, 5, 20, [(5, 10)] if room >= 2 else "15 0", room)
both(UTC, APART, FIRST, LAST, [(FIRST, 10), (20, LAST)])
case(UTC, APART, 10, 20, [], 0)
both(UTC, APART, 9, 21, [(9, 10), (20, 21)])
both(KINDS, APART, 0, 30, [(10, 30)])

# ---- names by their bytes, pool numbers aside; a nameless fixed zone's name is its ID [14.8]

both(UTC, VP + hex_("0103" "000130"), 0, 1, [])
case(UTC, V + hex_("0007" "03014201410141" "0104" "01013002"), 0, 1, [])
case(UTC, VP + hex_("0104" "00013001"), 0, 1, [(0, 1)])
case(UTC, V + hex_("0007" "03014201430141" "0104" "02013000"), 0, 1, [(0, 1)])
PREFIX = V + field(0, b"\x03" + text("A") + text("AB") + text("")) + field(1, hex_("00013001"))
case(UTC, PREFIX, 0, 1, [(0, 1)])
both(PREFIX, PREFIX[:-1] + b"\x02", 0, 1, [(0, 1)])

# ---- changes of both zones: at one tick to the same, at one tick and apart, and one tick long

CHANGES = zone(listed([(START, 0, 0, 0), (ticks(10), 0, HOURS, HOURS), (ticks(20), 0, 0, 0)]))
case(CHANGES, CHANGES, 0, 30, [])
case(CHANGES, zone(listed([(START, 0, 0, 0), (ticks(11), 0, HOURS, HOURS), (ticks(20), 0, 0, 0)])), 0, 30, [(10, 11)])
both(CHANGES, zone(listed([(START, 0, 0, 0), (ticks(9), 0, HOURS, HOURS), (ticks(21), 0, 0, 0)])), 0, 30, [(9, 10), (20, 21)])
case(CHANGES, zone(listed([(START, 1, 0, 0), (ticks(10), 0, HOURS, HOURS), (ticks(20), 1, 0, 0)])), 0, 30, [(0, 10), (20, 30)])
case(CHANGES, zone(listed([(START, 0, HOURS, HOURS), (ticks(10), 0, 0, 0), (ticks(20), 0, HOURS, HOURS)])), 0, 30, [(0, 30)])

# ---- tails: London's against none, against itself in a list, and against other rules


def rule(mode, weekday, month, day, ms):
    return bytes([mode * 32 + weekday * 4]) + count(month) + signed(day) + offset(ms)


def tail(ms, standard, daylight, savings, names=(0, 0)):
    return b"\x01" + offset(ms) + count(names[0]) + standard + count(names[1]) + daylight + offset(savings)


FALL, SPRING = rule(0, 7, 10, -1, HOURS), rule(0, 7, 3, -1, HOURS)
LONDON = zone(listed([(START, 0, 0, 0)], ticks(0), tail(0, FALL, SPRING, HOURS)))
Y2024, Y2025, Y2044 = 1704067200 * SECONDS, 1735689600 * SECONDS, 2335219200 * SECONDS
SUMMER = (1711846800 * SECONDS, 1729990800 * SECONDS)
both(UTC, LONDON, Y2024, Y2025, [SUMMER])
case(UTC, LONDON, SUMMER[0] + 1, SUMMER[1] - 1, [(SUMMER[0] + 1, SUMMER[1] - 1)])
case(UTC, LONDON, SUMMER[0] - 1, SUMMER[0], [])
case(UTC, LONDON, SUMMER[1], Y2025, [], 0)
case(UTC, LONDON, FIRST, 0, [])
case(LONDON, LONDON, FIRST, LAST, [], 0)
for room in (40, 39, 38, 42):
    case(UTC, LONDON, Y2024, Y2044, room=room)
    assert (room < 40) == list(cases.values())[-1].startswith("15 0")
# an hour later in spring, the names exchanged, and winter in summer's place
both(LONDON, zone(listed([(START, 0, 0, 0)], ticks(0), tail(0, FALL, rule(0, 7, 3, -1, 2 * HOURS), HOURS))), Y2024, Y2025, [(SUMMER[0], SUMMER[0] + HOUR)])
case(LONDON, zone(listed([(START, 0, 0, 0)], ticks(0), tail(0, FALL, SPRING, HOURS, (0, 1)))), Y2024, Y2025, [SUMMER])
case(LONDON, zone(listed([(START, 0, 0, 0)], ticks(0), tail(0, FALL, SPRING, HOURS, (1, 0)))), Y2024, Y2025, [(Y2024, SUMMER[0]), (SUMMER[1], Y2025)])
case(LONDON, zone(listed([(START, 0, 0, 0)], ticks(0), tail(0, SPRING, FALL, HOURS))), Y2024, Y2025, [(Y2024, Y2025)])
# the list's end and the tail's start: the same change, told by the list or by the tail
case(LONDON, zone(listed([(START, 0, 0, 0), (ticks(SUMMER[0]), 0, HOURS, HOURS)], ticks(SUMMER[1]), tail(0, FALL, SPRING, HOURS))), Y2024, Y2025, [])

# ---- a long list, entered in its middle: an hour ahead for 128 hours, and not for 128 hours

# the two intervals behind stand 128 hours after the one before, each
UNIT = hex_("8001" "003230" "8001" "003030")
front = VP + b"\x01" + count(1 + 1 + 2 + 4 + 12 + 10 * 2000 + 2) + b"\x00\x02" + count(4002) + START + hex_("003030") + ticks(0) + hex_("003030")
LONG = front + UNIT * 2000 + b"\x01\x00"
STEP = 128 * HOUR
for first, last, said in (
    (0, 6 * STEP, [(STEP, 2 * STEP), (3 * STEP, 4 * STEP), (5 * STEP, 6 * STEP)]),
    (3000 * STEP, 3004 * STEP - 1, [(3001 * STEP, 3002 * STEP), (3003 * STEP, 3004 * STEP - 1)]),
    (3998 * STEP + 1, LAST, [(3999 * STEP, 4000 * STEP)]), (4000 * STEP, LAST, []), (FIRST, STEP, []),
):
    case(UTC, LONG, first, last, said, 6, spelled=parts(front, UNIT, 2000, b"\x01\x00"))

write_cases("difference_cases", cases.items())
