#!/usr/bin/env python3
"""Writes the input and the expected output of location_cases: run it in any folder.

The second reader (tests/second_reader) asks for each location. Where a case below has numbers with places beside it, the readings of
02-change-requests.md in docs/DECISIONS.md give them, and the second reader must give the same.
The first word of the command line, if there is one, is the second reader's program; else it is built.
"""
from stored import Second, count, field, hex_, parts, signed, text, write_cases

SECOND = Second()
FILE = SECOND.file

V = bytes(4)
P = field(0, hex_("03014101420143"))                # A, B and C; ends at 13
A = hex_("010400013000")                            # zone A, fixed, UTC; ends at 19
VP = V + P
assert len(VP) == 13 and len(VP + A) == 19

cases = {}


def case(s, number=0, id_=6, said=None, spelled=None):
    """One line. said is what the location gives, where the readings say so."""
    line = "%d %d %s" % (id_, number, spelled or s.hex() or "-")
    if line not in cases:
        with open(FILE, "wb") as f:
            f.write(s)
        cases[line] = asked(id_, number)
    assert said is None or cases[line] == said, (line[:200], cases[line], said)


def asked(id_, number):
    """The second reader's answer without the pin, and with `none` where the countries end."""
    words = SECOND.says("location", FILE, str(id_), str(number)).decode().split(" ")
    if words[0] != "0":
        return " ".join(words)
    return " ".join(["0"] + words[3:] + ["none"])


def refused(s, said):
    """A file that is refused whatever is asked of it."""
    for id_ in (6, 7):
        for number in (0, 1):
            case(s, number, id_, said)


def location(latitude=0, longitude=0, countries=((0, 1),), zone=2, comment=0, numbered=False):
    data = signed(latitude) + signed(longitude) + (signed(len(countries)) if numbered else b"")
    return data + b"".join(count(name) + count(code) for name, code in countries) + count(zone) + count(comment)


# ---- the layout [8.1]

G = VP + A + field(6, hex_("01000000010200"))
assert len(G) == 28
case(VP + hex_("0607" "01000000010200"), 0, 6, "0 43@12 41@8 1 41@8 42@10 none")
refused(VP + hex_("0606" "010000000102"), "9 13")

# ---- judged as read, and the ranges, both ends in [8.2, 8.3]

for h in ("0604" "01c2c627", "0606" "01c2c6278000", "0604" "01c1c627", "0605" "0100818d4f", "0605" "0100828d4f"):
    refused(VP + hex_(h), "20 13")
case(VP + hex_("0609" "01c0c62700" "00000000"), 0, 6, "0 41@8 41@8 1 41@8 41@8 none")
for latitude, longitude in ((324000, 648000), (-324000, -648000), (-324000, 648000), (1, -1), (225, -225)):
    case(VP + field(6, b"\x01" + location(latitude, longitude)))
    case(VP + field(7, b"\x01" + location(latitude, longitude, numbered=True)), 0, 7)
for latitude, longitude in ((324001, 0), (-324001, 0), (0, 648001), (0, -648001), (2**31 - 1, 0), (0, -2**31)):
    refused(VP + field(6, b"\x01" + location(latitude, longitude)), "20 13")
    refused(VP + field(7, b"\x01" + location(latitude, longitude, numbered=True)), "20 13")
# a value's own code comes before its range
for h, number in (("0180", 9), ("018000", 7), ("0100", 9), ("0100c2", 9), ("01008000", 7), ("01ffffffff1f", 7)):
    refused(VP + field(6, hex_(h)), "%d 13" % number)

# ---- the number of countries [8.4, 8.5]

case(VP + hex_("0706" "010000000000"), 0, 7, "0 41@8 41@8 0 none")
refused(VP + hex_("0704" "01000001"), "20 13")
refused(VP + hex_("0704" "01000003"), "20 13")
refused(VP + hex_("0708" "010000feffffff0f"), "9 13")
refused(VP + hex_("0709" "010000feffffff0f03"), "8 13")
refused(VP + hex_("0605" "ffffffff07"), "9 13")
refused(VP + hex_("0705" "ffffffff07"), "9 13")
for n in (1, 2, 3, 20):
    countries = tuple((k % 3, (k + 1) % 3) for k in range(n))
    case(VP + field(7, b"\x01" + location(7, 8, countries, 1, 2, True)), 0, 7)

# ---- no location, no data, leftovers, texts [8.6, 8.7, 8.10, 8.14]

case(VP + hex_("060100"), 0, 6, "12 13")
case(VP + hex_("070100"), 0, 7, "12 13")
refused(VP + hex_("0600"), "9 13")
refused(VP + hex_("0700"), "9 13")
refused(VP + hex_("0608" "0100000001020000"), "9 13")
for place in range(4):
    texts = [0, 1, 2, 0]
    for bad, number in ((3, 8), (2**31 - 1, 8)):
        texts[place] = bad
        refused(VP + field(6, hex_("010000") + b"".join(count(t) for t in texts)), "%d 13" % number)
    refused(VP + field(6, hex_("010000") + bytes(texts[:place]) + hex_("8000")), "7 13")
    refused(VP + field(6, hex_("010000") + bytes(texts[:place])), "9 13")
case(G, 0, 6, "0 43@12 41@8 1 41@8 42@10 none")
case(V + hex_("000100" "060100"), 0, 6, "12 7")
refused(V + hex_("000100" "0607" "01000000000000"), "8 7")

# ---- the check's order, and of the whole file [8.8, 8.9, 8.13]

refused(VP + hex_("0604" "01c2c627" "00"), "20 13")
case(G, 1, 6, "12 19")
case(G, 0, 7, "12 28")
refused(G + b"\x00", "5 28")
refused(G + b"\x06", "5 28")
refused(G + b"\x07", "2 28")
refused(VP + A + hex_("0604" "01c2c627"), "20 19")
refused(G[:-1], "2 19")
for s, said in ((b"", "2 0"), (V, "6 4"), (VP[:-1], "2 4"), (b"\x01" + VP[1:], "3 0")):
    refused(s, said)
for number in (2**31 - 1, 2**31, 2**32, 2**63, 2**64 - 1):
    case(G, number, 6, "12 19")
    case(G, number, 7, "12 28")

# ---- both fields, several locations, behind other fields

SIX = [location(k, -k, ((k % 3, 0),), 1, k % 2) for k in range(5)]
SEVEN = [location(-k, k, ((0, 1),) * (k % 4), 2, 1, True) for k in range(6)]
BOTH = VP + A + field(2, text(b"2025b")) + field(6, count(5) + b"".join(SIX)) + field(7, count(6) + b"".join(SEVEN)) + field(8, b"x")
for number in range(7):
    case(BOTH, number, 6)
    case(BOTH, number, 7)

# ---- texts of the pool at its ends, and a long field

LONG = V + field(0, count(300) + b"".join(text(b"%03d" % k) for k in range(300)))
case(LONG + field(6, b"\x01" + location(0, 0, ((299, 0),), 128, 127)))
case(LONG + field(7, b"\x01" + location(0, 0, ((299, 298), (0, 1)), 255, 256, True)), 0, 7)
front = LONG + b"\x06" + count(2 + 6 * 1000) + count(1000)
for number in (0, 500, 999, 1000):
    case(front + location() * 1000, number, 6, spelled=parts(front, location(), 1000, b""))

write_cases("location_cases", list(cases.items()))
