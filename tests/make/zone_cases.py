#!/usr/bin/env python3
"""Writes the input and the expected output of zone_cases in the program part_cases: run it in any folder.

Each zone's data is wrapped into a whole file, whose pool holds the strings "0", "1", .. , and the second reader (tests/second_reader) checks that file
and answers for the instants. Each refusal stands below with the number that 01-scope.md gives, and the second reader must give the same.
The first word of the command line, if there is one, is the second reader's program; else it is built.
"""
from stored import Second, count, offset, signed, write_cases

SECOND = Second()
FILE = SECOND.file


def second(*words):
    """What the second reader writes, as words."""
    return SECOND.says(*words).decode().split()


# ---- the small codes

START, END = b"\x00", b"\x01"


def ticks(t):
    return b"\x02" + t.to_bytes(8, "big", signed=True)


def hours(n):
    assert 128 <= n < 2097152
    return count(n)


def minutes(t):
    n, rest = divmod(t + 53646624000000000, 600000000)
    assert rest == 0 and n >= 2097152
    return count(n)


# ---- zones, as lists of parts: what it is, and its bytes

def data(parts):
    return b"".join(b for _, b in parts)


def fixed(id_, ms, name=None):
    """With a name, or ending right after its offset."""
    return [("name", count(id_)), ("flag", b"\x01"), ("offset", offset(ms))] + ([] if name is None else [("name", count(name))])


def interval(start, name, wall, savings):
    return [("transition", start), ("name", count(name)), ("offset", offset(wall)), ("offset", offset(savings))]


def rule(byte, month, date, time):
    return [("rule", bytes([byte])), ("month", count(month)), ("day", signed(date)), ("time", offset(time))]


def tail(standard, standard_name, standard_rule, daylight_name, daylight_rule, savings):
    return ([("offset", offset(standard)), ("name", count(standard_name))] + standard_rule
            + [("name", count(daylight_name))] + daylight_rule + [("offset", offset(savings))])


def listed(id_, intervals, end, behind=None):
    parts = [("name", count(id_)), ("flag", b"\x02"), ("count", count(len(intervals)))]
    for i in intervals:
        parts += interval(*i)
    return parts + [("transition", end), ("tail", b"\x00" if behind is None else b"\x01")] + (behind or [])


# ---- cases: a line of the input, and what is written for it

FIRST, LAST = -621355968000000000, 2534023007999999999
cases = {}


def wrap(pool, d):
    """A whole file, and the place of its zone."""
    field = count(pool) + b"".join(count(len(str(i))) + str(i).encode() for i in range(pool))
    before = bytes(4) + b"\x00" + count(len(field)) + field
    return before + b"\x01" + count(len(d)) + d, len(before)


def check(pool, d):
    """The check's number."""
    whole, place = wrap(pool, d)
    with open(FILE, "wb") as f:
        f.write(whole)
    number, at = second("check", FILE)
    assert number == "0" or int(at) == place, (number, at)
    return int(number)


def store(instant, pool, words, said):
    cases["%s %04x %s" % (instant, pool, words)] = said


def refused(number, pool, d, words=None):
    """A zone that gives this number: in short lines for an instant too."""
    got = check(pool, d)
    assert got == number, (d.hex(), got, number)
    words = words or d.hex() or "-"
    store("-", pool, words, str(number))
    if len(d) < 9:
        store(0, pool, words, "%d %d" % (number, number))


def good(pool, d, instants=(), ahead=2, back=1, words=None):
    """A well-formed zone, asked at the first and the last instant, at these instants, and at, just before and just after each bound of the first
    `ahead` intervals, of the last `back` ones and of those that hold the instants."""
    assert check(pool, d) == 0, d.hex()
    id_ = second("code", "read", "count", d[:5].hex())[2]
    words = words or d.hex()
    store("-", pool, words, "0 " + id_)
    asked = {}

    def at(t):
        """Start and end of the interval that holds t."""
        if t not in asked:
            number, wall, savings, standard, start, end, name = second("ask", FILE, id_, str(t), "all")
            assert number == "0"
            asked[t] = start, end
            store(t, pool, words, " ".join(["0", id_, wall, savings, standard, name, start, end]))
        return asked[t]

    def around(bound):
        if bound not in ("start", "end"):
            for t in range(int(bound) - 1, int(bound) + 2):
                if FIRST <= t <= LAST:
                    at(t)

    t = FIRST
    for _ in range(ahead):
        end = at(t)[1]
        around(end)
        if end == "end":
            break
        t = int(end)
    t = LAST
    for _ in range(back):
        start = at(t)[0]
        around(start)
        if start == "start" or int(start) == FIRST:
            break
        t = int(start) - 1
    at(LAST)
    for t in instants:
        for bound in at(t):
            around(bound)


def day(year, month, date):
    return int(second("date", str(year), str(month), str(date))[0]) * 864000000000


HOUR = 36000000000    # in ticks
H = 3600000           # in milliseconds
IN_1900, IN_2000, IN_2024 = day(1900, 1, 1), day(2000, 1, 1), day(2024, 6, 1)

# ---- good zones: fixed

good(1, data(fixed(0, 0, 0)))
good(3, data(fixed(1, -75000, 2)), [0, -1, 1])
good(300, data(fixed(299, 1, 298)))
good(8192, data(fixed(8191, 86399999, 0)))
good(2, data(fixed(0, -86399999, 1)))
# without a name: it is the ID (02, Ask 2)
good(1, data(fixed(0, 0)))
good(3, data(fixed(2, -75000)), [0])
good(300, data(fixed(299, 1)))
good(8192, data(fixed(8191, 20700000)))

# ---- good zones: one interval and several, their starts in hours, minutes and ticks

good(2, data(listed(0, [(START, 1, 20700000, 0)], END)), [0])
good(4, data(listed(3, [(START, 0, 1200000, 0), (minutes(IN_1900), 1, H, 0), (hours(128), 2, 2 * H, H), (ticks(IN_1900 + 128 * HOUR + 1), 1, H, 0)], END)),
     ahead=9, back=9)
# starts at the first instant, one tick behind it and at the last instant; the most hours; the least and the most minutes
good(3, data(listed(0, [(START, 0, 0, 0), (ticks(FIRST), 1, H, 0), (ticks(FIRST + 1), 2, -H, 1), (hours(2097151), 1, 0, -1), (ticks(LAST), 0, 1000, 0)], END)),
     ahead=9)
good(2, data(listed(0, [(START, 0, 0, 0), (count(2097152), 1, H, 0), (count(2147483647), 0, 2 * H, 0)], END)), ahead=9, back=9)
# the same on both sides of a start
good(1, data(listed(0, [(START, 0, H, 0), (minutes(IN_2000), 0, H, 0)], END)), ahead=9)
# as many intervals as there may be: one, one more, and 4,094 of 128 hours
front = data([("name", count(0)), ("flag", b"\x02"), ("count", count(4096))] + interval(START, 0, 0, 0) + interval(minutes(day(1950, 1, 1)), 1, H, 0))
unit = data(interval(hours(128), 2, -H, 0))


def most(times, end):
    return front + unit * times + end, "%s %s %04x %s" % (front.hex(), unit.hex(), times, end.hex() or "-")


d, words = most(4094, END + b"\x00")
good(3, d, [day(1975, 1, 1)], ahead=2, back=2, words=words)

# ---- good zones: tails

SINCE_2000 = minutes(IN_2000)
EUROPE = tail(H, 1, rule(0x1C, 10, -1, H), 2, rule(0x1C, 3, -1, H), H)


def tailed(t, instants=(), start=SINCE_2000, pool=3, **more):
    good(pool, data(listed(0, [(START, 0, H, 0)], start, t)), instants, **more)


# last Sundays by UTC; Sundays on or after a day by wall time; the southern half by standard time, with names of two bytes
tailed(EUROPE, [IN_2024], ahead=4, back=2)
tailed(tail(-5 * H, 1, rule(0x3E, 11, 1, 2 * H), 2, rule(0x3E, 3, 8, 2 * H), H), [IN_2024])
tailed(tail(37800000, 299, rule(0x5E, 4, 1, 2 * H), 298, rule(0x5E, 10, 1, 2 * H), 1800000), [IN_2024], pool=300)
# savings below 0; the day behind a weekday, and "on or after" without one
tailed(tail(H, 1, rule(0x1C, 3, -1, H), 2, rule(0x1C, 10, -1, H), -H), [IN_2024])
tailed(tail(0, 1, rule(0x39, 9, -1, 0), 2, rule(0x02, 4, 10, 0), H), [IN_2024])
# rules that don't alternate: 1 March against a Sunday on or after 26 February; rules that fall together; rules apart by their wall offsets only
tailed(tail(0, 1, rule(0x00, 3, 1, 0), 2, rule(0x1E, 2, 26, 0), H), [day(2021, 2, 28), day(2023, 3, 1), day(2024, 3, 1)])
tailed(tail(0, 1, rule(0x00, 5, 1, H), 2, rule(0x00, 5, 1, H), H), [day(2024, 5, 1)])
tailed(tail(0, 1, rule(0x20, 5, 1, H), 2, rule(0x20, 5, 1, H), H), [day(2024, 5, 1)])
# over the end of a year: forward by the offset, by the weekday and by the added day, and back by the offset and by the weekday
tailed(tail(-10 * H, 1, rule(0x40, 12, 31, 23 * H), 2, rule(0x06, 12, 31, 0), H), [day(2024, 1, 1), day(2025, 1, 1)])
tailed(tail(-23 * H, 1, rule(0x1F, 12, 31, 86399999), 2, rule(0x41, 12, -1, 86399999), -1800000), [day(2024, 1, 3)])
tailed(tail(14 * H, 1, rule(0x40, 1, 1, 0), 2, rule(0x1C, 1, 1, 0), H), [day(2023, 12, 31), day(2024, 12, 29)])
# 29 February, in leap years and in common ones, alone and with a weekday; days from the end of a month
tailed(tail(0, 1, rule(0x00, 2, 29, 0), 2, rule(0x1E, 2, 29, 0), H), [day(2021, 2, 28), day(2024, 2, 29), day(2100, 2, 28)])
tailed(tail(0, 1, rule(0x04, 2, 29, 0), 2, rule(0x00, 2, -28, 86399999), H), [day(2023, 2, 27), day(2024, 2, 2)])
tailed(tail(0, 1, rule(0x00, 4, -30, 0), 2, rule(0x00, 12, -31, 0), H), [IN_2024])
# the largest and the least sum
tailed(tail(23 * H, 1, rule(0x20, 7, 31, 1), 2, rule(0x20, 1, 31, 43200001), 3599999), [IN_2024])
tailed(tail(-23 * H, 1, rule(0x20, 7, 31, 1), 2, rule(0x20, 1, 31, 43200001), -3599999), [IN_2024])
# a tail from the first instant, from the last, and from an occurrence, one tick before and one after it; an end in hours
tailed(EUROPE, start=ticks(FIRST))
tailed(EUROPE, start=ticks(LAST))
change = int(second("rule", "1c030132", "0", "0", "2024")[1])
for start in range(change - 1, change + 2):
    tailed(EUROPE, start=ticks(start), back=0)
good(3, data(listed(2, [(START, 0, 0, 0), (SINCE_2000, 1, H, 0)], hours(5040), EUROPE)), ahead=3, back=0)

# ---- refusals in each position of a fixed zone and of one with all parts, whose codes are long

pool = 300
alone = fixed(298, 75001, 297)
whole = listed(298, [(START, 297, 75000, 1), (ticks(IN_2000 + 1), 296, 20700000, H)], hours(5040),
               tail(20700000, 295, rule(0x3E, 11, -1, 75000), 294, rule(0x5D, 3, 8, 7500001), 60001))

# for each kind of part the codes that give a number, whatever is behind them
bad_counts = [(7, "8000"), (7, "8080808080"), (7, "ffffffff08")]
bad_offsets = [(7, "e0"), (7, "00"), (7, "60"), (7, "803c")]
FAULTS = {
    "name": bad_counts + [(8, count(pool).hex()), (8, "ffffffff07")],
    "flag": [(9, "00"), (9, "03"), (9, "ff")],
    "count": bad_counts + [(10, "00"), (4, count(4097).hex()), (4, "ffffffff07")],
    "offset": bad_offsets,
    "transition": [(7, "03"), (7, "7f"), (7, "8000"), (7, ticks(FIRST - 1).hex()), (7, ticks(LAST + 1).hex())],
    "tail": [(9, "02"), (9, "ff")],
    "rule": [(11, "60"), (11, "80"), (11, "ff")],
    "month": bad_counts + [(11, "00"), (11, "0d"), (11, "ffffffff07")],
    "day": [(7, "8000"), (7, "8080808080"), (7, "ffffffff10")] + [(11, signed(n).hex()) for n in (0, 32, -32, 2147483647, -2147483648)],
    "time": bad_offsets + [(11, offset(ms).hex()) for ms in (-1, -1800000, -86399999)],
}
for zone in (alone, whole):
    good(pool, data(zone), ahead=9)
    # cut before, in and behind each code; left over
    for k in range(len(data(zone))):
        if zone is alone and k == len(data(zone[:-1])):
            good(pool, data(zone)[:k])
        else:
            refused(9, pool, data(zone)[:k])
    refused(9, pool, data(zone) + b"\x00")
    refused(9, pool, data(zone) + b"\xff\xff")
    for i, (kind, _) in enumerate(zone):
        shown = set()
        for number, code in FAULTS[kind]:
            d = data(zone[:i]) + bytes.fromhex(code)
            refused(number, pool, d)
            # once for each number with all the rest behind it
            if number not in shown:
                refused(number, pool, d + data(zone[i + 1:]))
                shown.add(number)

# ---- 8: a number is below the count

for count_, zone in ((0, fixed(0, 0, 0)), (1, fixed(1, 0, 0)), (1, fixed(0, 0, 1)), (8192, fixed(8192, 0, 0))):
    refused(8, count_, data(zone))

# ---- the first fault gives the number

refused(8, 1, b"\x01\x03")
refused(9, 1, b"\x00\x03" + count(4097))
for code in ("e0", "a00e10", "c0000000", "ca4cb800", "9680"):
    refused(7, 1, b"\x00\x01" + bytes.fromhex(code) + b"\x05")
refused(8, 1, b"\x00\x01\x30\x05\x00")
# a cut code whose value could only be too large is cut
refused(9, 1, b"\x00\x01\x8c")

# ---- 10: the first start, later ones, and the end

one = [(START, 0, 0, 0)]
two = one + [(SINCE_2000, 0, 0, 0)]
late = one + [(ticks(LAST), 0, 0, 0)]
for start in (END, SINCE_2000, ticks(FIRST), ticks(LAST)):
    d = data(listed(0, [(start, 0, 0, 0)], END))
    refused(10, 1, d)
    refused(10, 1, d[:3 + len(start)])
for start in (START, END):
    refused(10, 1, data(listed(0, one + [(start, 0, 0, 0)], END)))
not_later = (START, END, SINCE_2000, ticks(IN_2000), ticks(IN_2000 - 1), ticks(FIRST), minutes(day(1999, 12, 31)))
for start in not_later:
    refused(10, 1, data(listed(0, two + [(start, 0, 0, 0)], END)))
    refused(10, 3, data(listed(0, two, start, EUROPE)))
# without a tail the end is end of time, and its fault comes before bytes left over; with one it is finite and after the last start
for end in (START, SINCE_2000, ticks(LAST)):
    refused(10, 1, data(listed(0, one, end)))
    refused(10, 1, data(listed(0, one, end)) + b"\x00")
for end in (START, END):
    refused(10, 3, data(listed(0, one, end, EUROPE)))
    refused(10, 3, data(listed(0, one, end, []))[:9])
for end in (END, ticks(LAST)):
    refused(10, 3, data(listed(0, late, end, EUROPE)))
# the end's use is judged only after a tail byte that is known, its code at once
for end in (START, END, SINCE_2000):
    refused(9, 1, data(listed(0, one, end))[:-1])
    refused(9, 1, data(listed(0, one, end))[:-1] + b"\x02")
refused(7, 1, data(listed(0, one, hours(128))))
refused(7, 1, data(listed(0, one, hours(128)))[:-1])

# ---- 7: hours after a mark, and past the last instant

refused(7, 1, data(listed(0, [(hours(128), 0, 0, 0)], END)))
refused(7, 1, data(listed(0, one + [(hours(128), 0, 0, 0)], END)))
refused(7, 1, data(listed(0, late + [(hours(128), 0, 0, 0)], END)))
refused(7, 3, data(listed(0, late, hours(128), EUROPE)))

# ---- 10: wall minus savings not inside 24 hours (02, Ask 7), in the first interval, in one of five bytes, in one of twelve and in a long one

DAY, HALF = 86400000, 1800000
ODD = ((DAY - HALF, -HALF), (HALF - DAY, HALF), (DAY - HALF, HALF - DAY), (DAY - 1, -1), (1 - DAY, 1))
EVEN = ((DAY - HALF, 0), (HALF - DAY, -HALF), (0, 1 - DAY))
for before, start in (([], START), (two, hours(128)), (two, ticks(IN_2024)), (one, minutes(IN_1900))):
    for wall, savings in ODD:
        d = data(listed(0, before + [(start, 0, wall, savings)], END))
        refused(10, 1, d[:-2])
    # at once: before the next code's 7 and before the tail byte; after the name's 8
    refused(10, 1, d)
    refused(10, 1, d[:-2] + b"\x03")
    refused(8, 1, data(listed(0, before + [(start, 1, wall, savings)], END)))
    for wall, savings in EVEN:
        good(1, data(listed(0, before + [(start, 0, wall, savings)], END)), ahead=0, back=0)

# ---- 11: the days of each length of month, and the sum, which comes before bytes left over

yearly = rule(0, 5, 1, 0)
for month, longest, shortest in ((1, 31, 31), (2, 29, 28), (4, 30, 30), (12, 31, 31)):
    for date in (longest + 1, -shortest - 1):
        refused(11, 3, data(listed(0, one, SINCE_2000, tail(0, 1, rule(0, month, date, 0), 2, yearly, 0))))
        refused(11, 3, data(listed(0, one, SINCE_2000, tail(0, 1, yearly, 2, rule(0, month, date, 0), 0))))
for standard, savings in ((84600000, 1800000), (86399999, 1), (86399999, 86399999), (-84600000, -1800000), (-86399999, -1), (-1, -86399999)):
    d = data(listed(0, one, SINCE_2000, tail(standard, 1, yearly, 2, yearly, savings)))
    refused(11, 3, d)
refused(11, 3, d + b"\x00")

# ---- the most intervals, and a fault in the last one or behind it

for number, times, end in ((9, 4093, b""), (9, 4093, unit[:4]), (8, 4093, hours(128) + b"\x03"), (10, 4093, END), (10, 4094, ticks(LAST) + b"\x00"),
                           (9, 4094, END), (9, 4094, END + b"\x00\x00")):
    d, words = most(times, end)
    refused(number, 3, d, words)

write_cases("zone_cases", list(cases.items()))
