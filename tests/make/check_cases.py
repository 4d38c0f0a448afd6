#!/usr/bin/env python3
"""Writes the input and the expected output of check_cases: run it in any folder.

The second reader (tests/second_reader) checks each file, reads its version text and answers the question under both editions; only the place of a version text, which
it doesn't give, is found here, by the field sizes, and the bytes there must be those that it gives.
Where a case below has numbers with places beside it, 01-scope.md gives them, and the second reader must give the same.
The first word of the command line, if there is one, is the second reader's program; else it is built.
"""
from stored import Second, but_name, count, field, hex_, offset, padded, parts, text, write_cases

SECOND = Second()
FILE = SECOND.file
second = SECOND.says


# ---- codes, fields and zones

def pool(*strings):
    return field(0, count(len(strings)) + b"".join(text(s) for s in strings))


def fixed(id_, byte=0x30, name=0):
    return count(id_) + b"\x01" + bytes([byte]) + (b"" if name is None else count(name))


V = bytes(4)
FIRST, LAST = -621355968000000000, 2534023007999999999
MIN, MAX = -9223372036854775808, 9223372036854775807
MOST = 4194304


# ---- cases: a line of the input, and what is written for it

cases = {}


def read_count(s, at):
    value, shift = 0, 0
    while True:
        value |= (s[at] & 127) << shift
        shift += 7
        at += 1
        if s[at - 1] < 128:
            return value, at


def text_place(s):
    """Place and length of the text in field 2 of a well-formed file."""
    at = 4
    while True:
        id_ = s[at]
        size, at = read_count(s, at + 1)
        if id_ == 2:
            length, at = read_count(s, at)
            return at, length
        at += size


def version(s):
    said = second("version", FILE)
    number, rest = said.split(b" ", 1)
    if number != b"0":
        return said.decode()
    at, length = text_place(s)
    assert s[at:at + length] == rest
    return "0 %d %d" % (at, length)


def ask(id_, ticks, edition):
    said = second("ask", FILE, id_, str(ticks), "all", edition)
    if not said.startswith(b"0 "):
        return said.decode()
    values, name = said.split(b" ", 6)[:6], said.split(b" ", 6)[6]
    return b" ".join(values).decode() + " " + (name.hex() or "-")


def case(s, id_=b"UTC", ticks=0, checked=None, asked=None, text_=None, spelled=None, first=None):
    """One line. checked, text_ and asked are what the check, the version text and the question give by 01-scope.md, where they are said; first is what
    the question gives under edition 1, where 02 or a reading of it says so. Nothing but a name differs under it."""
    line = "%d %s %s" % (ticks, id_.hex() or "-", spelled or s.hex() or "-")
    if line not in cases:
        with open(FILE, "wb") as f:
            f.write(s)
        cases[line] = (second("check", FILE).decode(), version(s), ask(id_, ticks, "2"), ask(id_, ticks, "1"))
        assert but_name(cases[line][2]) == but_name(cases[line][3]), line[:200]
    for said, wanted in zip(cases[line], (checked, text_, asked, first)):
        assert wanted is None or said == wanted, (line[:200], said, wanted)


def refused(s, said, id_=b"UTC"):
    """A file that check, version text and question refuse alike."""
    case(s, id_, 0, said, said, said)


def long_case(front, unit, times, end, *more, **said):
    """A file that is stored as its front, a unit so many times, and its end."""
    case(front + unit * times + end, *more, **said, spelled=parts(front, unit, times, end))


# ---- the worked file, whole, longer and cut

UTC = V + pool(b"UTC") + field(1, fixed(0))
UTC_ANSWER = "0 0 0 0 start end 555443"
assert UTC == hex_("00000000" "00050103555443" "010400013000")
for ticks in (0, FIRST, LAST):
    case(UTC, b"UTC", ticks, "0 0", UTC_ANSWER, "12 17")
case(UTC, b"GMT", 0, asked="12 17")
case(UTC + b"\x02", b"GMT", 0, "2 17", "12 17", "2 17")
case(UTC + b"\x02", b"UTC", 0, "2 17", UTC_ANSWER)
refused(b"", "2 0")
for k in range(len(UTC)):
    place = 0 if k < 4 else 4 if k < 11 else 11
    said = "2 %d" % place
    case(UTC[:k], b"UTC", 0, "6 4" if k == 4 else "0 0" if k == 11 else said, "12 %d" % k if k in (4, 11) else said)
    case(UTC[:k], b"GMT")
# 14 comes first, on no bytes too
for ticks in (FIRST - 1, LAST + 1, MIN, MIN + 1, MAX, MAX - 1):
    case(UTC, b"UTC", ticks, "0 0", "14 0")
for s in (b"", b"\x01", b"\x01\x02\x03\x04", V, UTC[:16]):
    case(s, b"UTC", LAST + 1, asked="14 0")

# ---- one byte left out, put in, or changed

for k in range(len(UTC)):
    case(UTC[:k] + UTC[k + 1:])
    case(UTC[:k] + b"\x00" + UTC[k:])
    b = UTC[k]
    for other in sorted({0, 2, 0x80, 0xFF, b ^ 1, b ^ 0x20, (b + 1) % 256} - {b}):
        case(UTC[:k] + bytes([other]) + UTC[k + 1:])

# ---- the asked ID: only the same bytes are the same, and no ID is refused

IDS = V + pool(b"UTC", b"", b"\xc3\xa9", b"UT") + field(1, fixed(0, 0x31)) + field(1, fixed(1, 0x32)) + field(1, fixed(2, 0x33, 2)) + field(1, fixed(3, 0x2F, 1))
END = len(IDS)
for id_, ms, name in ((b"UTC", 1800000, "555443"), (b"", 3600000, "555443"), (b"\xc3\xa9", 5400000, "c3a9"), (b"UT", -1800000, "-")):
    case(IDS, id_, 0, "0 0", "0 %d 0 %d start end %s" % (ms, ms, name))
for id_ in (b"utc", b"U", b"UTCC", b"UTC ", b"\xc3", b"\xa9", b"\xff", b"\xc3\xa9\xff", b"a" * 1025):
    case(IDS, id_, 0, "0 0", "12 %d" % END)
case(V + pool(b"") + field(1, fixed(0)), b"", 0, "0 0", "0 0 0 0 start end -")
# a string that is no zone's ID
case(V + pool(b"UTC", b"GMT") + field(1, fixed(0, 0x30, 1)), b"GMT", 0, "0 0", "12 21")

# ---- a zone with intervals and a tail, as a part of a file

TAIL = hex_("32001c0a0132011c03013232")
OSLO = hex_("020202" "00003230" "80c2d72f013432" "b02701") + TAIL    # summer time for 5,040 hours from 2000 on, then the tail
LISTED = V + pool(b"CET", b"CEST", b"Europe/Oslo") + field(1, OSLO)
for ticks in (FIRST, 0, 9466848000000000 - 1, 9466848000000000, 9648288000000000 - 1, 9648288000000000, 17118468000000000 - 1, 17118468000000000, 17299908000000000,
              LAST):
    case(LISTED, b"Europe/Oslo", ticks, "0 0")
case(LISTED, b"Europe/Oslo", 17118468000000000, "0 0", "0 7200000 3600000 3600000 17118468000000000 17299908000000000 43455354")
for k in (28, 29, 30, 31, 40, len(LISTED) - 1):
    case(LISTED[:k], b"Europe/Oslo", 0, "2 28" if k > 28 else "0 0", "2 28" if k > 28 else "12 28")

# ---- 2: the bytes end in the version or in a field

for k in (1, 2, 3):
    refused(V[:k], "2 0")
    refused(b"\xff" * k, "2 0")
for h in ("00", "0080", "00ffffffff", "0005", "00050103", "0005ff"):
    refused(V + hex_(h), "2 4")
P = V + pool(b"UTC", b"A", b"UTC")    # ends at 17
AT = len(P)
Z = P + field(1, fixed(0))            # ends at 23
assert AT == 17 and len(Z) == 23
for h in ("01", "0180", "0104000130", "0103ff"):
    refused(P + hex_(h), "2 17")
for id_ in (2, 3, 8, 255):
    for more in (b"", b"\x80", b"\x02\x00", b"\xff\xff\xff\xff"):
        case(Z + bytes([id_]) + more, b"UTC", 0, "2 23", UTC_ANSWER, "2 23")
    case(Z + bytes([id_]) + b"\x01", b"A", 0, "2 23", "12 23", "2 23")

# ---- 3: the version

for h in ("00000001", "01000000", "00010000", "00000100", "01020304", "ffffffff", "80000000"):
    refused(hex_(h), "3 0")
    refused(hex_(h) + UTC[4:], "3 0")
refused(hex_("00000001") + b"\x01", "3 0")

# ---- 5: an ID lower than the one before, or 0 or 2 to 7 a second time

refused(P + pool(b"UTC"), "5 17")
for more in (b"", b"\x80\x00", pool(b"A")[1:]):
    case(Z + b"\x00" + more, b"A", 0, "5 23", "5 23", "5 23")
    case(Z + b"\x00" + more, b"UTC", 0, "5 23", UTC_ANSWER)
TEXT = field(2, text(b"2025b"))
for id_ in range(2, 8):
    # fields 6 and 7 without a location
    data = {2: text(b"x"), 3: b"\x00"}.get(id_, b"\x00" if id_ in (6, 7) else b"x")
    once = Z + field(id_, data)
    case(once, b"UTC", 0, "0 0", UTC_ANSWER, "0 26 1" if id_ == 2 else "12 %d" % len(once))
    for more in (field(id_, data), bytes([id_]) + b"\x80\x00"):
        case(once + more, b"A", 0, "5 %d" % len(once), "12 23", "5 %d" % len(once))
    for lower in (0, 1, id_ - 1):
        case(once + field(lower, fixed(1)), b"A", 0, "5 %d" % len(once), "12 23")
# 1 and 8 to 255 may stand again
for id_ in (8, 9, 255):
    case(Z + field(id_, b"") + field(id_, b"xyz") + field(id_, b""), b"A", 0, "0 0", "12 23")
    case(Z + field(id_, b"") + field(id_ - 1, b""), b"A", 0, "5 25", "12 23")
case(Z + field(1, fixed(1)), b"A", 0, "0 0", UTC_ANSWER)

# ---- 6: the first field, and no field

case(V, b"UTC", 0, "6 4", "12 4", "6 4")
for id_ in (1, 2, 8, 255):
    for more in (b"", b"\x80\x00", b"\x00", hex_("ffffffff07")):
        refused(V + bytes([id_]) + more, "6 4")
refused(V + field(1, fixed(0)), "6 4")
refused(V + TEXT, "6 4")

# ---- 7: a size

for size in ("8080808080", "808080808000", "ffffffff08"):
    refused(V + b"\x00" + hex_(size), "7 4")
    refused(P + b"\x01" + hex_(size), "7 17")
    for id_ in (2, 3, 8, 255):
        case(Z + bytes([id_]) + hex_(size), b"A", 0, "7 23", "12 23", "7 23")
for size in ("80", "8080", "808080", "80808080"):
    refused(V + b"\x00" + hex_(size), "2 4")

# ---- 4: a size, before the field is whole

for size in (MOST, 2147483647):
    refused(V + b"\x00" + count(size), "4 4")
    refused(P + b"\x01" + count(size) + fixed(0), "4 17")
    for id_ in (2, 3, 8, 255):
        case(Z + bytes([id_]) + count(size), b"UTC", 0, "4 23", UTC_ANSWER, "4 23")
        case(Z + bytes([id_]) + count(size), b"A", 0, "4 23", "12 23")
for place, before, id_ in ((4, V, 0), (17, P, 1), (23, Z, 3), (23, Z, 255)):
    size = MOST - place - 5
    asked = "12 23" if id_ > 1 else None
    case(before + bytes([id_]) + count(size), b"A", 0, "2 %d" % place, asked or "2 %d" % place)
    case(before + bytes([id_]) + count(size + 1), b"A", 0, "4 %d" % place, asked or "4 %d" % place)

# ---- the contents of field 0: 4, 7, 8, 9

for number, h in ((9, ""), (9, "80"), (9, "01"), (9, "0103"), (9, "0000"), (9, "0103555443ff"), (9, "0203555443"), (7, "8000"), (7, "8080808080"), (7, "018000"),
                  (4, "8140"), (4, "ffffffff07"), (4, "018108"), (4, "018108ff"), (8, "0101ff"), (8, "0102c328"), (9, "0102ff"), (8, "0101ff00"), (8, "0201ff8000")):
    refused(V + field(0, hex_(h)) + field(1, b""), "%d 4" % number)
case(V + field(0, b"\x00"), b"UTC", 0, "0 0", "12 7", "12 7")
refused(V + field(0, b"\x00") + field(1, fixed(0)), "8 7")

# ---- the contents of a zone: 4, 7 to 11, by the check and by a question for that zone, for a later one and for none

ZONE_FAULTS = [
    (9, ""), (9, "00"), (9, "0001"), (9, "00013080"), (9, "00013000ff"), (9, "00"), (9, "0000"), (9, "0003"), (9, "00ff"), (9, "00018c"), (9, "0001dfffff"),
    (9, "00020100003030027f"), (9, "000201000030300102"), (9, "00020100003030"), (9, "0002010000303001"), (9, "0002010000303000"), (9, "000201000030300100ff"),
    (7, "8000"), (7, "000100"), (7, "000160"), (7, "0001e0"), (7, "0001803c00"), (7, "00028000"), (7, "00020103"), (7, "0002018001"), (7, "000201000030308001"),
    (7, "000201000030308000"), (7, "0001308000"),
    (8, "0300013000"), (8, "ffffffff07"), (8, "00013003"), (8, "0002010003"), (8, "00013003ff"),
    (4, "00028120"), (4, "0002ffffffff07"),
    (10, "000200"), (10, "00020101"), (10, "000201000030300000"), (10, "000201000030300001"), (10, "000201000030300101"),
    (10, "00020200003030" "00003030" "0100"), (10, "00020300003030" "80c2d72f003030" "80c2d72f003030" "0100"),
    (11, "0002010000303080c2d72f01300080"), (11, "0002010000303080c2d72f01300060"), (11, "0002010000303080c2d72f0130001c00"), (11, "0002010000303080c2d72f0130001c0d"),
    (11, "0002010000303080c2d72f0130001c0300"), (11, "0002010000303080c2d72f0130001c03012f"), (11, "0002010000303080c2d72f015f001c030132001c0a013231"),
]
for number, h in ZONE_FAULTS:
    d = hex_(h)
    said = "%d 17" % number
    refused(P + field(1, d), said)
    # behind a zone: the question for that zone doesn't look past it
    case(Z + field(1, d), b"UTC", 0, "%d 23" % number, UTC_ANSWER, "%d 23" % number)
    # before a zone and a later fault
    refused(P + field(1, d) + field(1, fixed(1)) + b"\x00", said, b"A")

# ---- field 2: present, absent, bad

for s in (b"", b"2025b", "2025 b\n\u20ac".encode(), b"x" * 127, b"x" * 128):
    f = field(2, text(s))
    place = len(Z) + len(f) - len(s)
    case(Z + f, b"UTC", 0, "0 0", UTC_ANSWER, "0 %d %d" % (place, len(s)))
    case(Z + f + field(3, b"\x01\x01\x00") + field(8, b"") + field(8, b""), b"A", 0, "0 0", "12 23", "0 %d %d" % (place, len(s)))
    case(V + pool() + f, b"A", 0, "0 0", "12 7", "0 %d %d" % (place - 16, len(s)))
    case(Z + f + field(3, b"ab")[:-1], b"A", 0, "2 %d" % (23 + len(f)), "12 23", "2 %d" % (23 + len(f)))
    case(Z + f + b"\x01", b"A", 0, "5 %d" % (23 + len(f)), "12 23", "5 %d" % (23 + len(f)))
for number, h in ((9, ""), (9, "80"), (9, "01"), (9, "0541"), (9, "02ff"), (9, "8008ff"), (9, "0000"), (9, "0141ff"), (9, "0541424344450000"), (7, "8000"), (7, "808000"),
                  (7, "8080808080"), (7, "ffffffff08"), (4, "8108"), (4, "8108ff"), (4, "ffffffff07"), (8, "01ff"), (8, "01ff00"), (8, "02c080"), (8, "03eda080"),
                  (8, "0441424380")):
    for more in (b"", b"\x02"):
        case(Z + field(2, hex_(h)) + more, b"A", 0, "%d 23" % number, "12 23", "%d 23" % number)
    case(Z + field(2, hex_(h)), b"UTC", 0, "%d 23" % number, UTC_ANSWER, "%d 23" % number)
# fields 2 to 9 and 255, with data and without, none, some and all of them
ALL = Z + TEXT
for id_ in (3, 4, 5, 6, 7, 8, 9, 255):
    ALL += field(id_, b"\x00" if id_ in (3, 6, 7) else b"\xff" * (id_ % 11))
    case(ALL, b"UTC", 0, "0 0", UTC_ANSWER, "0 26 5")
    case(ALL[:-1], b"A", 0, None, "12 23")
    if id_ < 255 and id_ not in (6, 7):
        if id_ == 3:
            case(Z + field(id_, b""), b"A", 0, "9 23", "12 23", "9 23")
        else:
            case(Z + field(id_, b""), b"A", 0, "0 0", "12 23", "12 25")
case(P + TEXT, b"UTC", 0, "0 0", "12 17", "0 20 5")

# ---- 13: a second zone with the same ID bytes; a question never gives it, and the first zone answers

ONE, TWO, SAME = field(1, fixed(0, 0x31)), field(1, fixed(0, 0x32)), field(1, fixed(2, 0x33))
OTHER = field(1, fixed(1, 0x34))
FIRST_ANSWER, OTHER_ANSWER = "0 1800000 0 1800000 start end 555443", "0 7200000 0 7200000 start end 555443"
for twice in (ONE, TWO, SAME):
    case(P + ONE + twice, b"UTC", 0, "13 23", FIRST_ANSWER, "13 23")
    case(P + ONE + twice, b"A", 0, "13 23", "12 29", "13 23")
    case(P + ONE + twice + OTHER, b"A", 0, "13 23", OTHER_ANSWER)
    case(P + ONE + OTHER + twice + TEXT, b"A", 0, "13 29", OTHER_ANSWER, "13 29")
    case(P + OTHER + ONE + twice, b"UTC", 0, "13 29", FIRST_ANSWER)
    case(P + ONE + twice + TWO + SAME, b"B", 0, "13 23", "12 41")
    # that zone's own faults come before, and later fields' after
    case(P + ONE + field(1, twice[2:] + b"\x00"), b"UTC", 0, "9 23", FIRST_ANSWER)
    case(P + ONE + field(1, twice[2:-2]), b"A", 0, "9 23", "9 23")
    # without a name too
    case(P + ONE + field(1, twice[2:-1]), b"A", 0, "13 23", "12 28")
    case(P + ONE + field(1, twice[2:-1] + b"\x03"), b"A", 0, "8 23", "8 23")
    case(P + ONE + twice + b"\x00", b"A", 0, "13 23", "5 29")
    case(P + ONE + twice + b"\x01", b"A", 0, "13 23", "2 29")
    case(P + ONE + twice[:-1], b"A", 0, "2 23", "2 23")
case(P + SAME + ONE, b"UTC", 0, "13 23", "0 5400000 0 5400000 start end 555443")
EMPTY = V + pool(b"", b"A", b"") + field(1, fixed(0))
case(EMPTY + field(1, fixed(2)), b"", 0, "13 17", "0 0 0 0 start end -")
case(EMPTY + field(1, fixed(1)), b"A", 0, "0 0", "0 0 0 0 start end -")
# IDs that share length, start or end are different
NEAR = V + pool(b"AB", b"AC", b"CB", b"ABA", b"BA", b"A") + b"".join(field(1, fixed(k)) for k in range(6))
case(NEAR, b"BA", 0, "0 0", "0 0 0 0 start end 4142")
MANY = V + pool(*[b"%02d" % (k % 30) for k in range(31)]) + b"".join(field(1, fixed(k)) for k in range(30))
case(MANY, b"29", 0, "0 0", "0 0 0 0 start end 3030")
case(MANY + field(1, fixed(30)), b"30", 0, "13 %d" % len(MANY), "12 %d" % (len(MANY) + 6))

# ---- a question stops at the first zone with the asked ID, and checks all before

case(P + ONE + OTHER[:-1], b"UTC", 0, "2 23", FIRST_ANSWER)
case(P + ONE + OTHER[:-1], b"A", 0, "2 23", "2 23")
case(P + field(1, fixed(0, 0x60)) + OTHER, b"A", 0, "7 17", "7 17")
case(P + ONE[:-1] + b"\x01" + OTHER[:3], b"A", 0, "2 23", "2 23")

# ---- the examples of docs/DECISIONS.md on order and numbers

PA = hex_("00000000" "0003010141")
DOUBLE = hex_("00000000" "000703014101420141" "010400013000" "010402013200" "00")
case(DOUBLE, b"B", 0, "13 19", "5 25")
case(DOUBLE, b"A", 0, "13 19", "0 0 0 0 start end 41")
refused(V + hex_("0000"), "9 4")
case(V + hex_("000100"), b"A", 0, "0 0", "12 7", "12 7")
for number, h in ((7, "0002020000303080010030300100"), (7, "0002018001"), (7, "000201000030308001"), (9, "0002010000303000"), (9, "000201000030300002"),
                  (10, "000201000030300000"), (11, "0002010000303080c2d72f0130001c00"), (11, "0002010000303080c2d72f01300080"), (9, "00018c"), (9, "0001dfffff"),
                  (7, "0001e0"), (9, "00013080"), (10, "000200"), (4, "00028120"), (11, "0002010000303080c2d72f015f001c030132001c0a013231")):
    refused(PA + field(1, hex_(h)), "%d 9" % number, b"A")
refused(V + hex_("008080808080"), "7 4")
refused(V + hex_("0080808080"), "2 4")
refused(hex_("00000001"), "3 0")
refused(hex_("01"), "2 0")
case(V, b"", LAST + 1, "6 4", "14 0")
case(PA + hex_("028000"), b"A", 0, "9 9", "12 9", "9 9")
case(PA + hex_("01180002010000303080c2d72f0132001c030132001c0a013232"), b"A", LAST, "0 0", "0 7200000 3600000 3600000 2533969476000000000 end 41")

# ---- 02, Ask 2: "A fixed zone ending right after its offset is well formed and its name is its ID."

case(PA + hex_("0103000130"), b"A", 0, "0 0", "0 0 0 0 start end 41", "12 14")
case(PA + hex_("0103000130"), b"B", 0, "0 0", "12 14")
case(PA + hex_("0104000130"), b"A", 0, "2 9", "2 9", "2 9")
for number, h in ((9, "00013080"), (8, "00013001"), (7, "0001308000"), (9, "0001300000"), (8, "000201003030" "01")):
    refused(PA + field(1, hex_(h)), "%d 9" % number, b"A")
# the ID's own number, where the bytes stand twice; offsets of every length; the empty ID; several zones
case(P + field(1, fixed(2, 0x32, None)), b"UTC", 0, "0 0", "0 3600000 0 3600000 start end 555443")
for h, ms in (("31", 1800000), ("86f9", 20700000), ("a15135", -75000), ("c5265c01", 1)):
    case(P + field(1, b"\x01\x01" + hex_(h)) + TEXT, b"A", LAST, "0 0", "0 %d 0 %d start end 41" % (ms, ms), "0 %d 5" % (24 + len(h) // 2))
case(V + pool(b"") + field(1, fixed(0, 0x30, None)), b"", FIRST, "0 0", "0 0 0 0 start end -")
NAMELESS = P + field(1, fixed(1, 0x31, None)) + field(1, fixed(0, 0x32)) + TEXT
case(NAMELESS, b"A", 0, "0 0", "0 1800000 0 1800000 start end 41")
case(NAMELESS, b"UTC", 0, "0 0", "0 3600000 0 3600000 start end 555443")
case(NAMELESS, b"B", 0, "0 0", "12 28")
case(P + field(1, fixed(0, 0x31, None)) + field(1, fixed(2, 0x32, None)), b"A", 0, "13 22", "12 27")

# ---- 02, Ask 6: "Allow trailing zero groups in a field size only, up to five bytes; all other counts stay shortest."

for size in (padded(3, 2), padded(3, 5)):
    case(V + b"\x00" + size + PA[6:], b"A", 0, "0 0", "12 %d" % (8 + len(size)), "12 %d" % (8 + len(size)))
for number, size in ((7, "838080808000"), (7, "8380808080"), (7, "8380808008"), (4, "8380808007"), (4, "ffffffff00")):
    refused(V + b"\x00" + hex_(size) + PA[6:], "%d 4" % number)
refused(V + b"\x00" + padded(0, 5), "9 4")
refused(V + hex_("008380"), "2 4")
refused(V + hex_("000481000141"), "7 4")
case(PA + hex_("0203810041"), b"A", 0, "7 9", "12 9", "7 9")
# places count the padding, and so does the largest place
PADDED = V + b"\x00" + padded(3, 4) + PA[6:] + b"\x01" + padded(3, 2) + fixed(0, 0x30, None)
case(PADDED, b"A", 0, "0 0", "0 0 0 0 start end 41", "12 18")
case(PADDED + b"\x02" + padded(2, 5) + text(b"x") + b"\xc8" + padded(0, 3), b"B", 0, "0 0", "12 18", "0 25 1")
refused(P + b"\x01" + padded(MOST - 23, 5), "2 17")
refused(P + b"\x01" + padded(MOST - 22, 5), "4 17")

# ---- 02, Ask 7: "A zone where that leaves the open range of 24 hours either way is no longer well formed: number 10 in an interval, after its
# savings are read."

def one_interval(wall, savings):
    return hex_("0002010000") + offset(wall) + offset(savings)


# 24 hours and more, and a millisecond less, in half hours and in milliseconds
DAY, HALF = 86400000, 1800000
for wall, savings in ((DAY - HALF, -HALF), (HALF - DAY, HALF), (DAY - HALF, HALF - DAY), (DAY - 1, -1), (1 - DAY, 1), (1 - DAY, DAY - 1), (60000, 60000 - DAY)):
    refused(PA + field(1, one_interval(wall, savings) + b"\x01\x00"), "10 9", b"A")
    # at once: before 9 where the data end there, before the next code's 7, and before 9 for what is left over
    for more in ("", "03", "0100ff"):
        refused(PA + field(1, one_interval(wall, savings) + hex_(more)), "10 9", b"A")
for wall, savings in ((DAY - HALF, 0), (DAY - HALF, HALF), (HALF - DAY, 0), (HALF, 2 * HALF - DAY), (DAY - 1, 0), (1 - DAY, 0), (1 - DAY, -1), (60000, 60001 - DAY)):
    case(PA + field(1, one_interval(wall, savings) + b"\x01\x00"), b"A", 0, "0 0", "0 %d %d %d start end 41" % (wall, savings, wall - savings))
# after the faults of start, name, wall offset and savings
for number, h in ((10, "0002010100" "5f2f"), (8, "0002010001" "5f2f"), (7, "0002010000" "602f"), (7, "0002010000" "5f60"), (9, "0002010000" "5f")):
    refused(PA + field(1, hex_(h)), "%d 9" % number, b"A")
# a tail's ranges are as before, and its standard offset is the one that it stores; a fixed zone's is its offset
case(PA + hex_("01180002010000303080c2d72f015f001c030132001c0a01322f"), b"A", LAST, "0 0", "0 82800000 -1800000 84600000 2533969476000000000 end 41")
case(PA + hex_("010300015f"), b"A", 0, "0 0", "0 84600000 0 84600000 start end 41")
# every zone that a question passes is refused for it
AB = V + hex_("0005" "0201410142")
case(AB + hex_("01090002010000" "5f2f" "0100" "0103010130"), b"B", 0, "10 11", "10 11")
case(AB + hex_("0103010130" "01090002010000" "5f2f" "0100"), b"B", 0, "10 16", "0 0 0 0 start end 42")

# ---- 02, Ask 11: "Under 1 a fixed zone's name is its ID whatever follows; under 2 it is as today."

ZERO = "0 0 0 0 start end "
case(PA + hex_("010400013005"), b"A", 0, "8 9", "8 9", first="8 9")
case(PA + hex_("01050001300000"), b"A", 0, "9 9", "9 9", first="9 9")
case(PA + hex_("01050001308000"), b"A", 0, "7 9", "7 9", first="7 9")
# a listed zone with one offset keeps its interval's name
case(AB + hex_("0109" "00020100013030" "0100"), b"A", 0, "0 0", ZERO + "42", first=ZERO + "42")
case(AB + hex_("010400013001"), b"A", 0, "0 0", ZERO + "42", first=ZERO + "41")
case(AB + hex_("010400013001"), b"B", 0, "0 0", "12 17", first="12 17")
case(AB + hex_("0103000130"), b"A", 0, "0 0", ZERO + "41", first=ZERO + "41")
case(V + hex_("0005" "0201410141" "010400013001"), b"A", 0, "0 0", ZERO + "41", first=ZERO + "41")
for ticks in (FIRST, LAST):
    case(IDS, b"UT", ticks, "0 0", "0 -1800000 0 -1800000 start end -", first="0 -1800000 0 -1800000 start end 5554")
case(IDS, b"", LAST + 1, "0 0", "14 0", first="14 0")

# ---- the largest sizes, at them and one past

for strings, said in ((8192, "0 0"), (8193, "4 4")):
    head = V + b"\x00" + count(2 + strings) + count(strings)
    good = said == "0 0"
    long_case(head, b"\x00", strings, field(1, fixed(8191)), b"", checked=said, asked="0 0 0 0 start end -" if good else said)
    long_case(head, b"\x00", strings, b"", b"", checked=said, asked="12 8201" if good else said)
    long_case(head, b"\x00", strings, field(1, fixed(8192)), b"", checked="8 8201" if good else said)
# the last string is the zone's ID and name; a question's index has 256 places, or 8,192 for more strings
for strings in (1, 255, 256, 257, 8191, 8192):
    last = text(b"A")
    head = V + b"\x00" + count(len(count(strings)) + strings - 1 + len(last)) + count(strings)
    long_case(head, b"\x00", strings - 1, last + field(1, fixed(strings - 1, 0x32, strings - 1)), b"A", checked="0 0", asked="0 3600000 0 3600000 start end 41")
for length, good in ((1024, True), (1025, False)):
    head = V + b"\x00" + count(3 + length) + b"\x01" + count(length)
    long_case(head, b"a", length, field(1, fixed(0)), b"a" * length, checked="0 0" if good else "4 4", asked="0 0 0 0 start end " + "61" * 1024 if good else "4 4")
    long_case(Z + b"\x02" + count(2 + length) + count(length), b"a", length, b"", checked="0 0" if good else "4 23", asked=UTC_ANSWER,
              text_="0 28 1024" if good else "4 23")
for intervals, good in ((4096, True), (4097, False)):
    # start of time, a start in ticks, and 128 hours each; then end of time and no tail
    front = b"\x00\x02" + count(intervals) + hex_("00003030" "80c2d72f003030")
    size = len(front) + 5 * (intervals - 2) + 2
    long_case(P + b"\x01" + count(size) + front, hex_("8001003030"), intervals - 2, hex_("0100"), checked="0 0" if good else "4 17")

# a field that ends at 4,194,304 and one past it, of an ID above 1
UNIT = bytes(range(64))
for past in (0, 1):
    for id_ in (4, 255):
        size = MOST + past - 23 - 5
        head, behind = Z + bytes([id_]) + count(size), UNIT[:size % 64]
        said = "4 23" if past else "0 0"
        text_ = said if past else "12 4194304"
        long_case(head, UNIT, size // 64, behind, checked=said, asked=UTC_ANSWER, text_=text_)
        long_case(head, UNIT, size // 64, behind, b"A", checked=said, asked="12 23", text_=text_)
        long_case(head, UNIT, size // 64, behind[:-1], checked="4 23" if past else "2 23")
        # bytes behind it
        for more, number in ((b"\xff", 2), (b"\xff\x00", 4), (b"\xff\x80\x00", 4), (b"\xff\x80", 2), (b"\x02", 5)):
            if past == 0 and id_ == 3:
                long_case(head, UNIT, size // 64, behind + more, checked="%d 4194304" % number, asked=UTC_ANSWER)
# a pool that ends there, and a zone that ends there
WORD = b"a" * 512
for end in (MOST - 7, MOST - 6, MOST, MOST + 1):
    times, rest = divmod(end - 11, 514)
    head = V + b"\x00" + count(end - 9) + count(times + 1)
    id_ = b"b" * (rest - 1)
    assert len(head) == 11 and len(text(WORD)) == 514 and len(text(id_)) == rest and times < 8192
    whole = "0 0" if end == MOST else "4 4"
    with_zone = "0 0" if end == MOST - 7 else "4 %d" % end
    last = text(id_)
    if end < MOST:
        long_case(head, text(WORD), times, last + field(1, fixed(times)), id_, checked=with_zone, asked="0 0 0 0 start end " + "61" * 512 if end == MOST - 7 else with_zone)
    else:
        long_case(head, text(WORD), times, last, id_, checked=whole, asked="12 4194304" if end == MOST else "4 4")
    if end == MOST:
        long_case(head, text(WORD), times, last + b"\x01", id_, checked="2 4194304", asked="2 4194304")

write_cases("check_cases", [(line, " | ".join(said)) for line, said in cases.items()])
