#!/usr/bin/env python3
"""Writes the input and the expected output of closing_cases: run it in any folder.

The second reader (tests/second_reader) closes up each pool, with room for all of it and with none. Where a case below has a result beside it,
02-change-requests.md or a reading of it in docs/DECISIONS.md gives that, and the second reader must give the same; closed again, a file must stay as
it is. The room and the bytes behind the closed file are this script's own.
The first word of the command line, if there is one, is the second reader's program; else it is built.
"""
import os
import zlib

from stored import Second, count, field, hex_, offset, padded, parts, signed, text, write_cases

SECOND = Second()
FILE, OUT = SECOND.file, os.path.join(SECOND.folder.name, "out.nzd")

V = bytes(4)
P = field(0, hex_("03014101420143"))                # A, B and C; ends at 13
A = hex_("010400013000")                            # zone A, fixed, UTC; ends at 19
VP = V + P
assert len(VP) == 13 and len(VP + A) == 19
LARGEST = 4194304


def second(s, room):
    """What the second reader gives: the line that it writes, and the closed file or None."""
    with open(FILE, "wb") as f:
        f.write(s)
    said = SECOND.says("close", FILE, OUT, str(room)).decode()
    if not said.startswith("0 "):
        return said, None
    with open(OUT, "rb") as f:
        out = f.read()
    assert said == "0 %d" % len(out)
    return said, out


cases = {}


def case(s, room, said, out, spelled=None):
    """One line: a file, the room, and what is given; out is the closed file or None."""
    line = "%06x %s" % (room, spelled or s.hex() or "-")
    left = (out or b"").ljust(room, b"\xaa")
    shown = left.hex() or "-"
    if room > 512:
        shown = "%s..%08x..%s" % (left[:256].hex(), zlib.adler32(left), left[-32:].hex())
    cases.setdefault(line, "%s %s" % (said, shown))


def good(s, wanted=None, rooms=(None,), spelled=None):
    """A file that can be closed up, in each of the rooms; None is the room that it needs and three bytes more."""
    said, out = second(s, len(s) + 100)
    assert out is not None, (s.hex()[:200], said)
    assert wanted is None or out == wanted, (s.hex()[:200], out.hex()[:200])
    assert second(out, len(out)) == (said, out)
    for room in rooms:
        room = len(out) + 3 if room is None else room
        if room < len(out):
            case(s, room, "15 0", None, spelled)
        else:
            case(s, room, said, out, spelled)
    return out


def refused(s, wanted=None, rooms=(0, 40), spelled=None):
    """A file that is refused, whatever the room."""
    said = second(s, 0)[0]
    assert second(s, len(s) + 100)[0] == said
    assert wanted is None or said == wanted, (s.hex()[:200], said, wanted)
    for room in rooms:
        case(s, room, said, None, spelled)


def ticks(t):
    """An instant as a transition, in ticks."""
    return b"\x02" + t.to_bytes(8, "big", signed=True)


def pool(*strings):
    return field(0, count(len(strings)) + b"".join(text(s) for s in strings))


# ---- by pool number: equal strings under two numbers are two strings [14.30]

good(V + hex_("0009" "040141014201430142" "0104" "00013002" "0104" "01013002" "0303" "010302"),
     V + hex_("0009" "040143014101420142" "0104" "01013000" "0104" "02013000" "0303" "010300"))

# ---- unused strings go, up to all [14.31]

good(VP, V + hex_("000100"), (0, 6, 7, 13))
good(V + hex_("000100"), V + hex_("000100"), (0, 6, 7))
good(VP + A, V + hex_("0003010141" "010400013000"), (0, 1, 14, 15, 16, 19, 40))

# ---- most used first, ties by old place

NUMBERS = pool("a", "b", "c", "d", "e")
for uses in ((0, 1, 2, 3), (3, 2, 1, 0), (4, 4, 0, 1), (4, 3, 3, 0), (1, 3, 2, 3), (2, 2, 2, 2), (0, 4, 0, 4)):
    good(V + NUMBERS + field(6, b"\x01" + signed(0) + signed(0) + b"".join(count(k) for k in uses)))
# equal strings that are used alike keep their order, and the empty one counts as any other
good(V + pool("b", "", "b", "a") + hex_("0104" "03013001" "0104" "01013002" "0104" "02013000"))

# ---- all else is copied: transitions in whatever form [14.32]

TAILED = VP + hex_("011d" "00020100003030" "020000000000000000" "01" "32" "01" "1c0a0132" "02" "1c030132" "32")
good(TAILED, TAILED)
FORMS = hex_("00" "013230") + ticks(0) + hex_("023030") + hex_("8001" "013230") + ticks(128 * 2 * 36 * 10**9) + hex_("023030") + hex_("80c2d72f" "013230")
good(VP + field(1, b"\x02\x02\x05" + FORMS + b"\x01\x00"))
# offsets of each length
for ms in (0, 60000, 1000, 1, -86399999):
    good(VP + field(1, b"\x02\x01" + offset(ms) + b"\x01"))

# ---- what mentions [14.36]: IDs, names, keys, targets, every text of fields 6 and 7; not field 2's text, nor an absent name

good(VP + hex_("0103" "020130"), V + hex_("0003" "010143" "0103" "000130"))
good(VP + hex_("0103" "020130" "0202" "0141"), V + hex_("0003" "010143" "0103" "000130" "0202" "0141"))
good(VP + hex_("0104" "02013002"), V + hex_("0003" "010143" "0104" "00013000"))
good(VP + hex_("0303" "010201"), V + hex_("0005" "0201420143" "0303" "010100"))
good(VP + A + hex_("0305" "0201020201"), VP + A + hex_("0305" "0201020201"))
good(VP + hex_("0103" "020130" "0607" "01000001010102"), V + hex_("0005" "0201420143" "0103" "010130" "0607" "01000000000001"))
good(VP + hex_("070a" "01000004020102010201"), V + hex_("0005" "0201420143" "070a" "01000004010001000100"))
good(VP + hex_("0706" "010000000201"), V + hex_("0005" "0201420143" "0706" "010000000100"))
good(VP + hex_("060100" "070100"))
good(VP + A + hex_("0202" "0178" "030100" "060100" "070100"))
# intervals and the tail's two names
good(VP + field(1, hex_("01" "02" "02" "00" "02" "3030") + ticks(0) + hex_("02" "3230") + ticks(10) + hex_("01" "32" "02" "1c0a0132" "01" "1c030132" "32")))
good(VP + field(1, hex_("01" "02" "01" "00" "02" "3030") + ticks(10) + hex_("01" "32" "00" "1c0a0132" "02" "1c030132" "32")))
# many zones of one name
SIX = V + pool(*"ABCDEFG") + b"".join(field(1, count(k) + hex_("0130") + count(6)) for k in range(6))
good(SIX, V + pool(*"GABCDEF") + b"".join(field(1, count(k + 1) + hex_("0130") + count(0)) for k in range(6)))

# ---- sizes are shortest [14.37]

good(V + hex_("00" "878000" "03014101420143" "01" "8400" "00013000" "02" "818000" "00"), V + hex_("0003010141" "0104" "00013000" "020100"))
for n in range(2, 6):
    good(V + b"\x00" + padded(7, n) + P[2:] + b"\x01" + padded(4, 7 - n) + A[2:] + b"\x03" + padded(1, n) + b"\x00")

# ---- the check's faults come first, at their places; nothing is written

GOOD = VP + A
for s, said in (
    (b"", "2 0"), (V[:3], "2 0"), (V, "6 4"), (VP[:12], "2 4"), (GOOD[:18], "2 13"), (b"\x01" + GOOD[1:], "3 0"), (V + A, "6 4"), (GOOD + A, "13 19"),
    (GOOD + hex_("00"), "5 19"), (GOOD + hex_("030100" "0200"), "5 22"), (V + field(0, count(8193)), "4 4"), (GOOD + hex_("03" "80808002"), "4 19"),
    (GOOD + hex_("0104" "01016000"), "7 19"), (GOOD + hex_("0104" "01013003"), "8 19"), (GOOD + hex_("0105" "0101300000"), "9 19"), (GOOD + hex_("0103" "010200"), "10 19"),
    (GOOD + field(1, hex_("010201" "00003030" "80c2d72f" "01" "3200" "1c0d0132" "00" "1c0a0132" "32")), "11 19"),
    (GOOD + hex_("0305" "0201000102"), "19 19"), (GOOD + hex_("0604" "01c2c627"), "20 19"), (GOOD + hex_("0200"), "9 19"),
):
    refused(s, said, (20,))
refused(GOOD[:18], "2 13", (0,))

# ---- 22 at the first field of ID 4, 5 or above 7, after the whole check, before 4 and 15 [14.34]

for h, said in (
    ("0400", "22 19"), ("0400" "00", "5 21"), ("0400" "0700", "9 21"), ("0400" "0604" "01c2c627", "20 21"), ("0400" "02", "5 21"), ("0400" "07", "2 21"),
    ("0500", "22 19"), ("0800", "22 19"), ("ff00", "22 19"), ("0202" "0178" "030100" "0500" "0900", "22 26"), ("0400" "0500", "22 19"),
    ("020100" "030100" "060100" "070100" "0800", "22 31"), ("0901" "aa", "22 19"),
):
    refused(GOOD + hex_(h), said)
refused(VP + hex_("030100" "0500" "0900"), "22 16")

# ---- it can be longer than its source: 15 in the room of the source, and 4 [14.33]


def growing(zones, more):
    """Zones of 127 bytes of data each that mention string 0 once, over 129 strings of which all others are mentioned more often, so that string 0
    becomes number 128; and so many pairs of mentions of string 1 more. Front, unit, times and end."""
    front = V + pool(*("%03d" % k for k in range(129)))
    for k in range(1, zones + 1):
        walls = [1, 1, 1, 60000, 0, 0, 0, 0, 0, 0]
        starts = [b"\x00"] + [ticks(at * 36 * 10**9 + 1) for at in range(1, 10)]
        intervals = [start + count(k if at else 0) + offset(walls[at]) + offset(0) for at, start in enumerate(starts)]
        data = count(k) + b"\x02" + count(10) + b"".join(intervals) + b"\x01\x00"
        assert len(data) == 127
        front += field(1, data)
    pairs = b"".join(count(k) + count(k + 1) for k in range(1, 129, 2)) * (zones + 1)
    head = b"\x01" + signed(0) + signed(0) + signed(64 * (zones + 1) + more)
    end = pairs + b"\x01\x01"
    front += b"\x07" + count(len(head) + 2 * more + len(end)) + head
    # units of 128 pairs, the rest of the pairs behind them
    return front, b"\x01\x01" * 128, more // 128, b"\x01\x01" * (more % 128) + end


def grown(zones, more, behind=b""):
    """Such a file with some bytes behind it, and its spelling."""
    front, unit, times, end = growing(zones, more)
    end += behind
    s = front + unit * times + end
    assert all(len(part) <= 2048 for part in (front, unit, end))
    return s, parts(front, unit, times, end)


for zones in (2, 11):
    s, spelled = grown(zones, 0)
    after = len(s) + zones - 1
    assert len(good(s, None, (len(s), after - 1, after, after + 3) if zones == 2 else (len(s), after), spelled)) == after
# a closed file of 4,194,304 bytes, for which the program has no room, and one of a byte more
s, spelled = grown(3, 2096430)
assert len(s) == LARGEST - 2
good(s, None, (0, 64), spelled)
s, spelled = grown(2, 2096560)
assert len(s) == LARGEST
refused(s, "4 0", (0, 64), spelled)
# a field that isn't read comes before 4, and a fault of the check before both
s, spelled = grown(3, 2096430, hex_("0800"))
assert len(s) == LARGEST
refused(s, "22 %d" % (LARGEST - 2), (0,), spelled)
s, spelled = grown(3, 2096429, hex_("0800" "06"))
refused(s, "5 %d" % (LARGEST - 2), (0,), spelled)

write_cases("closing_cases", cases.items())
