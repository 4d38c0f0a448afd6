#!/usr/bin/env python3
"""Writes the input and the expected output of rewrite_cases: run it in any folder.

The second reader (tests/second_reader) normalizes each file, with room for all of it and with none. For a well-formed file the preferred one is made here too, from the same list of
fields and transitions as the source, by the words of 01-scope.md, and both must be the same; for a damaged one the number and the place stand
beside it here, and the second reader must give the same. The room and the bytes behind the preferred file are this script's own.
The first word of the command line, if there is one, is the second reader's program; else it is built.
"""
import itertools
import os
import zlib

from stored import Second, count, field, hex_, offset, padded, parts, text, write_cases

SECOND = Second()
OUT = os.path.join(SECOND.folder.name, "out.nzd")


def second(s):
    """What the second reader gives for normalizing: the line that it writes, and the preferred file or None."""
    with open(SECOND.file, "wb") as f:
        f.write(s)
    said = SECOND.says("normalize", SECOND.file, OUT, str(len(s))).decode()
    bare = SECOND.says("normalize", SECOND.file, OUT, "0").decode()
    if not said.startswith("0 "):
        assert bare == said
        return said, None
    assert bare == "15 0"
    with open(OUT, "rb") as f:
        out = f.read()
    assert said == "0 %d" % len(out)
    return said, out


# ---- codes

V = bytes(4)
START, END = "start", "end"
HOUR, MINUTE, ZERO = 36000000000, 600000000, -53646624000000000    # ZERO is 1800-01-01T00:00Z
FIRST, LAST = -621355968000000000, 2534023007999999999
MIN_HOURS, MAX_HOURS, MIN_MINUTES, MAX_MINUTES = 128, 2097151, 2097152, 2147483647


def by_minutes(n):
    """The instant that the code n, in minutes, names; n may be one that no code has."""
    return ZERO + n * MINUTE


def forms(t, prev):
    """Each form that can name t after prev, with its bytes, the writer's first: "mark, hours, minutes, ticks"."""
    if t == START:
        return {"mark": count(0)}
    if t == END:
        return {"mark": count(1)}
    out = {}
    if prev not in (START, END) and (t - prev) % HOUR == 0 and MIN_HOURS <= (t - prev) // HOUR <= MAX_HOURS:
        out["hours"] = count((t - prev) // HOUR)
    if (t - ZERO) % MINUTE == 0 and MIN_MINUTES <= (t - ZERO) // MINUTE <= MAX_MINUTES:
        out["minutes"] = count((t - ZERO) // MINUTE)
    out["ticks"] = b"\x02" + t.to_bytes(8, "big", signed=True)
    return out


# ---- fields. Each is (ID, data in the source, data in the preferred file)

def plain(id_, data):
    return id_, data, data


def pool(*strings):
    return plain(0, count(len(strings)) + b"".join(text(s) for s in strings))


def fixed(id_, ms=0, name=0):
    return plain(1, count(id_) + b"\x01" + offset(ms) + (b"" if name is None else count(name)))


UTC_DAYS = hex_("3000" "00010230" "00" "00070230" "32")    # standard time from 1 January, daylight savings from 1 July


def zone(id_, moments, tail=UTC_DAYS, names=(0,), walls=(0,), savings=(0,)):
    """A zone whose transitions are (moment, source form); the last is its end. Names and offsets go round."""
    source = wanted = count(id_) + b"\x02" + count(len(moments) - 1)
    prev = END
    for k, (t, form) in enumerate(moments):
        named = forms(t, prev)
        if k + 1 < len(moments):
            more = count(names[k % len(names)]) + offset(walls[k % len(walls)]) + offset(savings[k % len(savings)])
        else:
            more = b"\x00" if t == END else b"\x01" + tail
        source += named[form] + more
        wanted += next(iter(named.values())) + more
        prev = t
    return 1, source, wanted


def files(*fields, sizes=()):
    """The source, its first sizes in so many bytes where these are given, and the preferred file."""
    source = wanted = V
    for k, (id_, data, better) in enumerate(fields):
        source += bytes([id_]) + padded(len(data), sizes[k] if k < len(sizes) else 1) + data
        wanted += field(id_, better)
    return source, wanted


# ---- cases: a line of the input, and what is written for it

cases = {}
known = {}


def shown(out):
    if len(out) > 512:
        return "%s..%08x..%s" % (out[:256].hex(), zlib.adler32(out), out[-32:].hex())
    return out.hex() or "-"


def stored(s, unit):
    """How a line spells the file s: as its bytes, or by its longest row of a unit."""
    if unit is None:
        assert len(s) <= 2048
        return s.hex() or "-"
    at = s.index(unit * 64)
    times = 64
    while s[at + times * len(unit):at + (times + 1) * len(unit)] == unit:
        times += 1
    front, end = s[:at], s[at + times * len(unit):]
    assert max(len(front), len(end), len(unit)) <= 2048
    return parts(front, unit, times, end)


def put(s, room, said, out, unit=None):
    line = "%06x %s" % (room, stored(s, unit))
    result = "%s %s" % (said, shown(out + b"\xaa" * (room - len(out))))
    assert cases.setdefault(line, result) == result


def good(fields, rooms=None, unit=None, sizes=()):
    """A well-formed file, in an output of some rooms, or else of a room that goes round from just enough to more than the source."""
    source, wanted = files(*fields, sizes=sizes)
    if source not in known:
        known[source] = second(source)
        assert known[source] == ("0 %d" % len(wanted), wanted), (source.hex()[:400], known[source])
        assert second(wanted) == ("0 %d" % len(wanted), wanted)
    n = len(wanted)
    assert n <= len(source)
    for room in rooms if rooms is not None else [(n, n + 1, len(source), len(source) + 5)[len(cases) % 4]]:
        if room < n:
            put(source, room, "15 0", b"", unit)
        else:
            put(source, room, "0 %d" % n, wanted, unit)
    return source, wanted


def refused(s, said, rooms=None, unit=None):
    """A damaged file, in no room and in room for all of it."""
    assert second(s) == (said, None), (s.hex()[:400], second(s), said)
    for room in rooms or (0, len(s) + 2):
        put(s, room, said, b"", unit)


AB = pool(b"A", b"B")

# ---- the worked file, in every room up to three bytes more; and files that hold no transition

UTC = (pool(b"UTC"), fixed(0))
assert files(*UTC) == (hex_("00000000" "00050103555443" "010400013000"),) * 2
good(UTC, range(21))
good((pool(),))
good((AB,))
for ms in (0, 3600000, 84600000, -84600000, 20700000, -60000, -75000, 86399000, 1, -86399999, 86399999):
    good((AB, fixed(0, ms, 1)))
good((AB, fixed(1, 0, 0), fixed(0, 1, 1)))
# 02, Ask 2: "The rewriter keeps the absence", and a name that is the ID's too
for ms in (0, 20700000, -75000, 1):
    good((AB, fixed(0, ms, None)))
    good((AB, fixed(1, ms, 1)))
good((AB, fixed(1, 0, None), fixed(0, 1, 0)))

# ---- each transition alone: every form that names it in the source, as a later start and as the end

BASE = by_minutes(60 * 900000)          # a whole hour of 1902
OLD = FIRST + 24 * HOUR                 # before all minutes
LATE = by_minutes(MAX_MINUTES + 53)     # a whole hour after all minutes
assert (LATE - ZERO) % HOUR == 0 and OLD % HOUR == 0 and BASE % HOUR == 0


def alone(prev, t, *wanted):
    """t after prev. Wanted are its forms, the preferred first."""
    assert tuple(forms(t, prev)) == wanted, (prev, t, forms(t, prev))
    for form in wanted:
        before = [(START, "mark")]
        if prev != START:
            before.append((prev, next(iter(forms(prev, START)))))
        good((AB, zone(0, before + [(t, form), (END, "mark")])))
        good((AB, zone(0, before + [(t, form)])))


H, M, T = "hours", "minutes", "ticks"
# only a mark; and a mark behind it
good((AB, zone(0, [(START, "mark"), (END, "mark")])))
for hours in (128, 16383, 16384, 2097151):
    alone(BASE, BASE + hours * HOUR, H, M, T)
    alone(OLD, OLD + hours * HOUR, H, T)
for hours in (127, 2097152):
    alone(BASE, BASE + hours * HOUR, M, T)
    alone(OLD, OLD + hours * HOUR, T)
for hours in (128, 2097151):
    alone(LATE, LATE + hours * HOUR, H, T)
    # both a tick, or some minutes, off: hours all the same
    alone(BASE + 1, BASE + 1 + hours * HOUR, H, T)
    alone(BASE + 17 * MINUTE, BASE + 17 * MINUTE + hours * HOUR, H, M, T)
# a minute off a whole hour, and a tick
for hours, sign in ((128, 1), (128, -1), (2097151, 1), (2097151, -1)):
    alone(BASE, BASE + hours * HOUR + sign * MINUTE, M, T)
    alone(BASE, BASE + hours * HOUR + sign, T)
    if hours == 128:
        alone(OLD, OLD + hours * HOUR + sign * MINUTE, T)
alone(BASE + 1, BASE + 128 * HOUR, M, T)
# no hours behind a mark: the edges of minutes
for minutes, *wanted in ((MIN_MINUTES - 1, T), (MIN_MINUTES, M, T), (MIN_MINUTES + 1, M, T), (2 ** 28 - 1, M, T), (2 ** 28, M, T), (MAX_MINUTES - 1, M, T),
                         (MAX_MINUTES, M, T), (MAX_MINUTES + 1, T), (60 * 128, T), (0, T), (-1, T)):
    alone(START, by_minutes(minutes), *wanted)
    if minutes in (MIN_MINUTES, MAX_MINUTES):
        alone(START, by_minutes(minutes) + 1, T)
alone(START, 0, M, T)
alone(START, -1, T)
# the edges of minutes behind a finite one, too near for hours
for minutes, *wanted in ((MIN_MINUTES - 1, T), (MIN_MINUTES, M, T), (MAX_MINUTES, M, T), (MAX_MINUTES + 1, T)):
    alone(by_minutes(minutes) - 127 * HOUR, by_minutes(minutes), *wanted)
    alone(by_minutes(minutes) - 128 * HOUR, by_minutes(minutes), *([H] + wanted))
# the range's ends
for t in (FIRST, FIRST + 1, LAST, LAST - 1):
    alone(START, t, T)
alone(FIRST, FIRST + 1, T)
alone(FIRST, FIRST + 128 * HOUR, H, T)
alone(FIRST, LAST, T)
alone(LAST - 128 * HOUR, LAST, H, T)
alone(LAST - 1, LAST, T)

# ---- rows: each form behind each; all say the same

DAYS = [BASE, BASE + 5040 * HOUR, BASE + 25000 * HOUR, BASE + 25128 * HOUR]
for row in itertools.product((M, T), (H, M, T), (H, M, T), (H, M, T)):
    good((AB, zone(0, [(START, "mark")] + list(zip(DAYS, row)))))
for row in ((T, T, T), (M, T, M), (T, M, M), (M, M, M)):
    good((AB, zone(0, [(START, "mark")] + list(zip((BASE, BASE + 127 * HOUR, BASE + 254 * HOUR), row)) + [(END, "mark")])))
# hours, minutes and ticks by turns in the preferred file
STEPS = [BASE, BASE + 128 * HOUR, BASE + 129 * HOUR, BASE + 129 * HOUR + 1, BASE + 1129 * HOUR + 1, BASE + 1200 * HOUR,
         LATE, LATE + HOUR, LATE + 129 * HOUR, LATE + 257 * HOUR, LAST]
MIXED = [(START, "mark")]
for t in STEPS:
    MIXED.append((t, T))
good((AB, zone(0, MIXED)))
good((AB, zone(0, MIXED + [(END, "mark")])))
assert [next(iter(forms(t, prev))) for prev, t in zip([START] + STEPS, STEPS)] == [M, H, M, T, H, M, T, T, H, H, T]

# ---- what stands between the transitions is copied: names and offsets of every length, tails, other fields

LONG = [(START, "mark"), (BASE, T), (BASE + 128 * HOUR, T), (BASE + 20000 * HOUR, T)]
EVERY = ((0, 20700000), (20700000, -75000), (-75000, 1), (1, 0), (-84600000, -84600000), (86399999, 86399999))
for k in range(6):
    walls, savings = zip(*(EVERY[k:] + EVERY[:k]))
    good((AB, zone(0, LONG + [(END, "mark")], names=(k % 2, 1), walls=walls, savings=savings)))
good((AB, zone(1, LONG, names=(0, 1), walls=(-3600000, 0, 1), savings=(0, 3600000))))
for tail in ("30" "00" "1c030132" "01" "1c0a0132" "2f", "a15135" "01" "3e031034" "00" "3e0b0234" "32", "c5265c01" "00" "43020230" "01" "210c3d5f" "30",
             "30" "01" "00010230" "01" "00010230" "30"):
    for form in (H, M, T):
        good((AB, zone(0, LONG[:3] + [(LONG[3][0], form)], tail=hex_(tail), names=(1, 0))))
# names and IDs of two bytes, which could be hours
ZEROS = b"\x00"
for strings, last in ((130, 129), (8192, 8191)):
    big = plain(0, count(strings) + ZEROS * strings)
    good((big, zone(last, LONG, names=(128, last, 127))), unit=ZEROS)
    good((big, zone(last, LONG + [(END, "mark")], names=(128, last, 127))), unit=ZEROS)
    good((big, fixed(last, 0, 128)), unit=ZEROS)

SHAPE = zone(0, LONG)[1]                # a zone in ticks: elsewhere it is copied
ODD = (b"\x00", b"\x00", b"\xff" * 3, b"\x00", b"\x00", hex_("0104000130000104"), b"\x02" * 9)   # fields 6 and 7 without a location
for id_ in range(3, 10):
    good((AB, zone(0, LONG), plain(id_, ODD[id_ - 3])))
# the alias dictionary is copied where it is good, and checked before
for data in (b"\x01\x01\x00", b"\x02\x01\x00\x00\x01"):
    good((AB, fixed(0), plain(3, data)))
for data, number in ((b"", 9), (b"\x01\x01\x00\x00", 9), (b"\x01\x01\x09", 8), (b"\x80\x00", 7), (b"\x02\x01\x00\x01", 19)):
    source = files(AB, fixed(0))[0]
    refused(source + field(3, data), "%d %d" % (number, len(source)))
for data in (b"\x05" + b"2025b", b"\x00", b"\x03\xe2\x82\xac", b"\x09" + b"\x02" * 9):
    good((AB, zone(0, LONG), plain(2, data)))
good((AB, zone(0, LONG), plain(255, SHAPE)))
good((AB, plain(2, b"\x01x"), plain(4, SHAPE), plain(5, SHAPE)))
# one location in field 6, at a pole and on the date line, and one with two countries in field 7
good((AB, zone(0, LONG), plain(6, hex_("01" "c0c627" "808d4f" "00010001")), plain(7, hex_("01" "000004" "00010100" "0001"))))
ALL = [plain(2, b"\x01x")] + [plain(id_, ODD[id_ - 3]) for id_ in range(3, 10)]
ALL += [plain(9, b"9"), plain(254, b""), plain(255, SHAPE), plain(255, b""), plain(255, b"\x01")]
good((AB, zone(0, LONG), *ALL))
good((AB, fixed(0), *ALL))
good((pool(), *ALL))

# ---- several zones: each starts anew

MANY = pool(b"A", b"BC", b"", b"\xc3\xa9", b"A/B")
ONE = zone(0, LONG + [(END, "mark")], names=(1, 0))
TWO = zone(1, LONG, names=(2, 3, 4))
THREE = zone(2, [(START, "mark"), (END, "mark")])
FOUR = zone(3, [(START, "mark"), (BASE, M), (BASE + 128 * HOUR, H), (END, "mark")])
FIVE = fixed(4, 20700000, 3)
ZONES = (ONE, TWO, THREE, FOUR, FIVE)
for some in itertools.permutations((ONE, TWO, FOUR), 2):
    good((MANY,) + some)
for k in range(5):
    good((MANY,) + ZONES[k:] + ZONES[:k] + (plain(2, b"\x01x"), plain(8, SHAPE[k:])))

# ---- sizes that shrink across a count's length, and near it


def sized(size, shrinks, id_=0):
    """A zone with preferred data of that size. In its source the third interval and those behind it are longer by the numbers of shrinks."""
    # the bytes that a transition loses: the hours that it stands for, and its form in the source
    step = {1: (16384, M), 2: (128, M), 6: (16384, T), 7: (128, T), 0: (128, H)}
    moments, walls = [(START, "mark"), (BASE, M)], [0, 0]
    used = len(zone(id_, moments + [(END, "mark")])[2])
    for shrink in shrinks + [0] * 4096:
        hours, form = step[shrink]
        more = 5 + (hours == 16384) + (len(moments) == 127)    # from 128 intervals on their number has two bytes
        if used + more > size:
            break
        used += more
        moments.append((moments[-1][0] + hours * HOUR, form))
        walls.append(0)
    # the rest of the size: longer offsets in the first intervals
    for k in range(2):
        more = min(3, size - used)
        walls[k] = (0, 60000, 1000, 1)[more]
        used += more
    made = zone(id_, moments + [(END, "mark")], walls=walls)
    assert (len(made[2]), len(made[1])) == (size, size + sum(shrinks)), (size, shrinks, len(made[2]), len(made[1]))
    return made


UNIT = hex_("8001003030")
for size, shrinks in ((127, [1]), (127, [2]), (127, [7]), (127, [7, 7, 7]), (126, [1]), (126, [2]), (121, [7]), (128, [1]), (128, [7]),
                      (126, []), (127, []), (128, []), (100, [7] * 10)):
    good((AB, sized(size, shrinks), plain(4, b"\x01\x00")))
for size, shrinks in ((16383, [1]), (16383, [2]), (16383, [7, 7]), (16382, [1]), (16380, [2, 2]), (16384, [1]), (16384, [6, 7]),
                      (16383, []), (16384, []), (16300, [7] * 20)):
    both = (AB, sized(size, shrinks), plain(9, b"\x01\x00"))
    n = len(files(*both)[1])
    good(both, (n - 1, n, n + 1, n + 9) if sum(shrinks) == 1 else (n + 3,), unit=UNIT)
good((AB, sized(127, [1]), sized(127, [2], 1), plain(4, b"\x07" * 130)))
# the most intervals
most = [(START, "mark"), (BASE, T)] + [(BASE + 128 * k * HOUR, T if k < 3 else H) for k in range(1, 4095)]
good((AB, zone(0, most + [(END, "mark")])), unit=UNIT)
good((AB, zone(0, most + [(most[-1][0] + 127 * HOUR, T)])), unit=UNIT)
# fields of more than 2,097,151 bytes move to the front
for size in (2097151, 2097152, 3000000):
    both = (AB, sized(127, [1]), plain(4, b"\xfe\x01\x02" * (size // 3) + b"\x05" * (size % 3)))
    n = len(files(*both)[1])
    good(both, (n,) if size != 2097152 else (n - 1, n, n + 3), unit=b"\xfe\x01\x02")

# ---- the room

SHRINK = (AB, zone(0, LONG), zone(1, LONG + [(END, "mark")]), plain(2, b"\x01x"))
source, wanted = good(SHRINK)
n = len(wanted)
assert n + 8 < len(source)
good(SHRINK, (0, 1, 4, 5, 9, n - 8, n - 2, n - 1, n, n + 1, n + 2, n + 8, len(source) - 1, len(source), len(source) + 1, len(source) + 40))
PREFERRED = (AB, zone(1, [(START, "mark"), (BASE, M), (BASE + 128 * HOUR, H), (END, "mark")]), plain(8, b"\xaa" * 4))
n = len(files(*PREFERRED)[0])
good(PREFERRED, (0, 1, n - 5, n - 4, n - 1, n, n + 1, n + 2, n + 30))
good((pool(),), (0, 1, 3, 4, 6, 7, 8))

# ---- 02, Ask 10: "one operation that gives the check's refusal, or rewrites"; "An output of length 0 gets 15 once the file is good"

ALONE = (pool(b"A"),)
assert files(*ALONE)[0] == hex_("00000000" "0003010141")
good(ALONE, (0, 8, 9, 10))
refused(hex_("00000000" "0003010141" "0102" "0003"), "9 9", (0, 8, 9, 13))

# ---- 02, Ask 6: "Rewriting always shortens such a size": of every field, those that are only stepped over too

STEPPED = (pool(b"A"), plain(200, b"\xaa\xaa"))
assert files(*STEPPED, sizes=(2, 2)) == (hex_("00000000" "008300010141" "c88200aaaa"), hex_("00000000" "0003010141" "c802aaaa"))
good(STEPPED, (0, 12, 13, 14, 15), sizes=(2, 2))
for n in range(2, 6):
    good((AB, zone(1, [(START, "mark"), (BASE, M), (END, "mark")]), fixed(0), plain(2, b"\x01x"), plain(4, b"")), sizes=(n, 1, 7 - n, n, n))
    good((AB, zone(0, LONG[:2] + [(END, "mark")])), sizes=(1, n))
good((AB, fixed(0)), (n for n in (16, 17, 20, 24)), sizes=(5, 4))

# ---- damaged files: the check's number and place, in no room too, and the output as found. A zone that shrinks stands before the fault.

GOOD = files(AB, zone(0, LONG[:2] + [(END, "mark")]))[0]
AT = len(GOOD)
for s, said in ((b"", "2 0"), (V[:3], "2 0"), (GOOD[:-1], "2 11"), (GOOD[:12], "2 11"), (b"\x01" + GOOD[1:], "3 0"), (V[:3] + b"\x80" + GOOD[4:], "3 0"), (V, "6 4"),
                (V + GOOD[11:], "6 4"), (GOOD + GOOD[11:], "13 %d" % AT), (GOOD + hex_("010401013000") + GOOD[11:] + b"\x03", "13 %d" % (AT + 6)),
                (GOOD + hex_("04000200"), "5 %d" % (AT + 2)), (GOOD + hex_("0701000700"), "5 %d" % (AT + 3))):
    refused(s, said)
for number, h in ((2, "01"), (2, "0104" "010130"), (2, "0201"), (2, "ff80"), (4, "03" "80808002"), (4, "0104" "01028120"), (4, "0203" "8108ff"), (5, "0001" "00"),
                  (7, "038080808080"), (7, "0104" "01016000"), (7, "010a" "010201" "00003030" "7f0000"), (7, "010a" "010201" "00003030" "800100"),
                  (8, "0104" "01013002"), (8, "0104" "02013000"), (8, "0202" "01ff"),
                  (9, "0105" "0101300000"), (9, "0104" "01033000"), (9, "0200"), (9, "0107" "010201" "00003030"),
                  (10, "0103" "010200"), (10, "0109" "010201" "00003030" "0000"), (10, "0109" "010201" "01003030" "0100"),
                  (10, "010d" "010202" "00003030" "00003030" "0100"), (10, "0109" "010201" "00005f2f" "0100"), (10, "0107" "010201" "00000131"),
                  (11, "0118" "010201" "00003030" "80c2d72f" "01" "3200" "1c0d0132" "00" "1c0a0132" "32"), (13, "0104" "00013000")):
    refused(GOOD + hex_(h), "%d %d" % (number, AT))
# the range's ends passed: by hours, by minutes never, by ticks
for t, code in ((LAST - 128 * HOUR + 1, count(128)), (LAST, b"\x02" + (LAST + 1).to_bytes(8, "big")), (LAST, count(MAX_HOURS)),
                (0, b"\x02" + (FIRST - 1).to_bytes(8, "big", signed=True)),
                (0, b"\x02\x7f" + b"\xff" * 7), (0, b"\x02\x80" + bytes(7))):
    data = hex_("010202" "00003030") + forms(t, START)[T] + hex_("003030") + code + b"\x00"
    refused(GOOD + field(1, data), "7 %d" % AT)
# every cut of a file that shrinks, in just the room of the whole preferred file
WHOLE = (pool(b"A"), zone(0, LONG[:2] + [(END, "mark")]), plain(4, b"\x01"))
source, wanted = files(*WHOLE)
ends = {len(files(*WHOLE[:k])[0]): k for k in range(4)}
for k in range(len(source)):
    if k > 4 and k in ends:
        good(WHOLE[:ends[k]], (len(wanted),))
    else:
        refused(source[:k], "6 4" if k == 4 else "2 %d" % max(e for e in (0, *ends) if e <= k), (len(wanted),))

write_cases("rewrite_cases", list(cases.items()))
