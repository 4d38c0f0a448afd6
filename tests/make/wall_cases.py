#!/usr/bin/env python3
"""Writes the input and the expected output of wall_cases: run it in any folder.

The second reader (tests/second_reader) maps each local time; it tries every offset that the zone has. Where a case below has a result beside it,
02-change-requests.md or a sum done by hand gives it, and the second reader must give the same.
The first word of the command line, if there is one, is the second reader's program; else it is built.
"""
from stored import Second, count, field, hex_, offset, padded, parts, signed, text, write_cases

SECOND = Second()
FILE = SECOND.file

V = bytes(4)
FIRST, LAST = -621355968000000000, 2534023007999999999
MIN, MAX = -9223372036854775808, 9223372036854775807
SECOND_, MINUTE, HOUR, DAY = 10**7, 60 * 10**7, 3600 * 10**7, 86400 * 10**7
# ticks since 1970 of 1800-01-01T00:00Z, from which minutes are counted
Y1800 = -62135596800 * SECOND_ + 657071 * DAY


# ---- codes and zones; every text is the pool's first string

def pool(*strings):
    return field(0, count(len(strings)) + b"".join(text(s) for s in strings))


def fixed(ms):
    return b"\x00\x01" + offset(ms) + b"\x00"


def minutes(n):
    """An instant n minutes since 1800, as a transition."""
    assert n >= 2**21
    return count(n)


def ticks(t):
    """An instant in ticks since 1970, as a transition."""
    return b"\x02" + t.to_bytes(8, "big", signed=True)


def interval(start, ms, savings=0):
    return start + b"\x00" + offset(ms) + offset(savings)


def listed(intervals, end=b"\x01", tail=b"\x00"):
    """A zone of flag 2; tail is its tail byte with what stands behind it."""
    return b"\x00\x02" + count(len(intervals)) + b"".join(intervals) + end + tail


def rule(mode, weekday, month, day, ms, later=False, after=False):
    return bytes([mode * 32 + weekday * 4 + after * 2 + later]) + count(month) + signed(day) + offset(ms)


def tail(ms, standard, daylight, savings):
    return b"\x01" + offset(ms) + b"\x00" + standard + b"\x00" + daylight + offset(savings)


def file(zone, name=b"A"):
    return V + pool(name) + field(1, zone)


HOURS = 3600000
START = b"\x00"


# ---- cases: a line of the input, and what is written for it

cases = {}


def case(s, local, wanted=None, id_=b"A", spelled=None):
    line = "%d %s %s" % (local, id_.hex() or "-", spelled or s.hex() or "-")
    if line not in cases:
        with open(FILE, "wb") as f:
            f.write(s)
        cases[line] = SECOND.says("local", FILE, id_, str(local)).decode()
    assert wanted is None or cases[line] == wanted, (line[:200], cases[line], wanted)


def one(t):
    return "0 1 %d %d" % (t, t)


def two(a, b):
    return "0 2 %d %d" % (a, b)


# ---- a fixed zone: one instant, in range, whatever the local time

for ms in (0, HOURS, -HOURS, 86399999, -86399999, 1):
    zone = file(fixed(ms))
    shift = ms * 10000
    for t in (0, FIRST, FIRST + 1, LAST - 1, LAST):
        case(zone, t + shift, one(t))
    for local in (FIRST + shift - 1, LAST + shift + 1, MIN, MIN + 1, MAX, MAX - 1):
        case(zone, local, "17 0")
    for local in (FIRST, FIRST - 1, LAST, LAST + 1, FIRST - DAY, LAST + DAY):
        case(zone, local)
# "the last instant of 9999" an hour ahead reads past 9999, and the first hour of year 1 isn't read
AHEAD = file(fixed(HOURS))
assert AHEAD == hex_("00000000" "0003010141" "0104" "00013200")
case(AHEAD, 2534023043999999999, one(2534023007999999999))
case(AHEAD, FIRST, "17 0")

# ---- the refusals of a "this is all" question come first, at any local time; 14 never

for local in (0, MIN, MAX, LAST):
    for k in range(len(AHEAD)):
        place = 0 if k < 4 else 4 if k < 9 else 9
        case(AHEAD[:k], local, "12 %d" % k if k in (4, 9) else "2 %d" % place)
    case(AHEAD, local, "12 15", b"B")
    case(AHEAD + b"\x02", local, "12 15", b"B")
    case(AHEAD + b"\x00", local, "5 15", b"B")
    case(b"\x00\x00\x00\x01" + AHEAD[4:], local, "3 0")
    case(V + b"\x01" + AHEAD[5:], local, "6 4")
# nothing behind the zone is looked at
for more in (b"\x00", b"\x01", b"\x02", b"\x01\x80", field(1, b"\xff")):
    case(AHEAD + more, HOURS * 10000, one(0))
# a second zone with the ID isn't reached, and one before it is checked
case(AHEAD + field(1, fixed(0)), HOURS * 10000, one(0))
case(V + pool(b"A", b"B") + field(1, b"\x01\x01\x30\x00") + field(1, fixed(HOURS)), HOURS * 10000, one(0))
case(V + pool(b"A", b"B") + field(1, b"\x01\x01\x30\x02") + field(1, fixed(HOURS)), 0, "8 11")
# each fault of the asked zone: its code, a largest size, a name, an end, leftovers, a start, a rule
for zone, said in (
    (b"", "9 9"), (b"\x00", "9 9"), (b"\x00\x03\x30\x00", "9 9"), (b"\x80\x00\x01\x30\x00", "7 9"), (b"\x01\x01\x30\x00", "8 9"),
    (b"\x00\x01\x00\x00", "7 9"), (b"\x00\x01\x30\x01", "8 9"), (b"\x00\x01\x30\x00\x00", "9 9"),
    (b"\x00\x02\x00", "10 9"), (b"\x00\x02" + count(4097), "4 9"),
    (listed([interval(START, 0)], ticks(0)), "10 9"), (listed([interval(START, 0)], tail=b"\x02"), "9 9"),
    (listed([interval(START, 0), interval(b"\x01", 0)]), "10 9"), (listed([interval(START, 0)]) + b"\x00", "9 9"),
    (listed([interval(START, 0)], tail=tail(0, rule(0, 0, 1, 1, 0), rule(0, 0, 7, 1, 0), 0)), "10 9"),
    (listed([interval(START, 0)], ticks(0), tail(0, rule(3, 0, 1, 1, 0), rule(0, 0, 7, 1, 0), 0)), "11 9"),
    (listed([interval(START, 0)], ticks(0), tail(0, rule(0, 0, 13, 1, 0), rule(0, 0, 7, 1, 0), 0)), "11 9"),
):
    for local in (0, MIN):
        case(file(zone), local, said)
case(V + field(0, b"\x01\x80\x00"), 0, "7 4")
case(V + field(0, b"\x01\x01"), 0, "9 4")
case(V + field(0, count(8193)), 0, "4 4")

# 02, Ask 6: sizes with zero groups behind them; cut among these, and with too many
PADDED = V + b"\x00" + padded(3, 5) + pool(b"A")[2:] + b"\x01" + padded(4, 2) + fixed(HOURS)
case(PADDED, HOURS * 10000, one(0))
case(PADDED, 0, "12 20", b"B")
case(PADDED[:9], 0, "2 4")
case(PADDED[:15], 0, "2 13")
case(V + b"\x00" + padded(3, 6) + PADDED[10:], 0, "7 4")

# ---- one change: the interval holds its start and not its end

CHANGE = Y1800 + 100000000 * MINUTE
assert CHANGE == 6353376000000000
BACK = file(listed([interval(START, HOURS, HOURS), interval(minutes(100000000), 0)]))
assert BACK == hex_("00000000" "0003010141" "0110" "00020200003232" "80C2D72F" "003030" "0100")
case(BACK, CHANGE, two(CHANGE - HOUR, CHANGE))
case(BACK, CHANGE + HOUR, one(CHANGE + HOUR))
for local in (CHANGE - 1, CHANGE - HOUR, CHANGE + HOUR - 1, CHANGE + HOUR + 1, CHANGE + HOUR // 2):
    case(BACK, local)
FORTH = file(listed([interval(START, 0), interval(minutes(100000000), HOURS, HOURS)]))
for local, wanted in ((CHANGE - 1, one(CHANGE - 1)), (CHANGE, "17 0"), (CHANGE + HOUR - 1, "17 0"), (CHANGE + HOUR, one(CHANGE))):
    case(FORTH, local, wanted)
# two intervals of one offset, with other savings, are one instant
SAME = file(listed([interval(START, HOURS), interval(minutes(100000000), HOURS, HOURS)]))
for local in (CHANGE, CHANGE + HOUR, CHANGE + HOUR - 1, CHANGE + HOUR + 1):
    case(SAME, local, one(local - HOUR))

# ---- any count: short intervals, each with an offset that is smaller than the one before by as much as it is later

THREE = file(listed([interval(START, 2 * HOURS, 2 * HOURS), interval(minutes(100000000 - 90), HOURS, HOURS), interval(minutes(100000000 - 30), 0)]))
assert THREE == hex_("00000000" "0003010141" "0117" "00020300003434" "A6C1D72F" "003232" "E2C1D72F" "003030" "0100")
case(THREE, CHANGE, "0 3 6353304000000000 6353376000000000")
for local in (CHANGE - 1, CHANGE + 1, CHANGE - HOUR, CHANGE + HOUR, CHANGE + HOUR // 2, CHANGE + HOUR // 2 - 1):
    case(THREE, local)


def stairs(n):
    """The start and n intervals behind it, a minute each."""
    return [interval(START, 82800000)] + [interval(minutes(100000000 + i), 82800000 - 60000 * i) for i in range(1, n)]


MOST = CHANGE + 82800000 * 10000
# alone, and before a tail that is almost a day behind
for n in (2, 40, 500):
    for end, behind in ((b"\x01", b"\x00"), (minutes(100000000 + n), tail(-86340000, rule(0, 0, 3, 1, 0), rule(0, 0, 9, 1, 0), HOURS))):
        s = file(listed(stairs(n), end, behind))
        size = len(s) // 3 + 1
        spelled = parts(s[:size], s[size:2 * size], 1, s[2 * size:])
        case(s, MOST, "0 %d %d %d" % (n, CHANGE, CHANGE + (n - 1) * MINUTE) if behind == b"\x00" else None, spelled=spelled)
        if n < 500:
            case(s, MOST - 1, spelled=spelled)
            case(s, MOST + 1, spelled=spelled)

# ---- the tail: two at most, each by the offset that the question gives

LONDON = file(listed([interval(START, 0)], ticks(0), tail(0, rule(0, 7, 10, -1, HOURS), rule(0, 7, 3, -1, HOURS), HOURS)))
SPRING, FALL = 1711846800 * SECOND_, 1729990800 * SECOND_
for local, wanted in (
    (SPRING - 1, one(SPRING - 1)), (SPRING, "17 0"), (SPRING + HOUR // 2, "17 0"), (SPRING + HOUR - 1, "17 0"), (SPRING + HOUR, one(SPRING)),
    (FALL - 1, one(FALL - 1 - HOUR)), (FALL, two(FALL - HOUR, FALL)), (FALL + HOUR // 2, two(FALL - HOUR // 2, FALL + HOUR // 2)),
    (FALL + HOUR - 1, two(FALL - 1, FALL + HOUR - 1)), (FALL + HOUR, one(FALL + HOUR)),
):
    case(LONDON, local, wanted)
for local in (0, -1, HOUR, HOUR - 1, FIRST, LAST, LAST + 1, LAST + HOUR, LAST + HOUR + 1, MIN, MAX):
    case(LONDON, local)
TAILS = {
    # savings below 0: the standard offset is the larger
    "negative": tail(HOURS, rule(0, 7, 3, -1, HOURS), rule(0, 7, 10, -1, HOURS), -HOURS),
    # savings 0: two rules, one offset
    "zero": tail(HOURS, rule(0, 7, 10, -1, HOURS), rule(0, 7, 3, -1, HOURS), 0),
    # rules that don't alternate: daylight twice between two standards, where they change order at the year's end
    "twice": tail(0, rule(0, 7, 12, 29, 0, after=True), rule(0, 0, 1, 1, 0), HOURS),
    # both rules at one instant: standard is in force
    "together": tail(0, rule(0, 0, 6, 1, 0), rule(0, 0, 6, 1, 0), HOURS),
    # wall and standard times, and 24 hours of savings less a millisecond
    "wall": tail(0, rule(1, 7, 11, 1, 2 * HOURS, after=True), rule(1, 7, 3, 8, 2 * HOURS, after=True), HOURS),
    "standard": tail(-8 * HOURS, rule(2, 0, 10, -1, 0), rule(2, 0, 4, 1, 0, later=True), 86399999 - HOURS),
}
for behind in TAILS.values():
    s = file(listed([interval(START, -HOURS)], ticks(0), behind))
    for year in (2024, 2025):
        start = 62135596800 * -SECOND_ + (365 * (year - 1) + (year - 1) // 4 - (year - 1) // 100 + (year - 1) // 400) * DAY
        for day in (0, 67, 68, 88, 89, 90, 91, 151, 152, 299, 300, 303, 362, 363, 364):
            case(s, start + day * DAY + HOUR // 2)
    for local in (0, -1, -HOUR, -HOUR - 1, HOUR, HOUR - 1, FIRST, FIRST - HOUR, LAST, LAST + HOUR, LAST + HOUR + 1, LAST + 24 * HOUR, MIN, MAX):
        case(s, local)

write_cases("wall_cases", cases.items())
