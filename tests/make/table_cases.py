#!/usr/bin/env python3
"""Writes the input and the expected output of table_cases: run it in any folder.

A zone found once gives what a question as all there is gives, and the rows of a table are such questions, each at the end of the one before
(docs/STATEMENTS.md, "A zone found once" and "A table of answers"): so each is asked of the second reader (tests/second_reader). Where its name lies is
told by the pool, whose strings differ. The room and the numbers behind the rows are this script's own.
The first word of the command line, if there is one, is the second reader's program; else it is built.
"""
from stored import Second, count, field, hex_, padded, text, write_cases

SECOND = Second()
FILE = SECOND.file

V = bytes(4)
P = field(0, hex_("03014101420143"))                # A, B and C; ends at 13
A = hex_("010400013000")                            # zone A, fixed, UTC; ends at 19
VP = V + P
UTC = VP + A
assert len(VP) == 13 and len(UTC) == 19
FIRST, LAST = -621355968000000000, 2534023007999999999
MIN, MAX = -9223372036854775808, 9223372036854775807
HOUR = 36 * 10**9

cases = {}


def ask(id_, ticks, edition="2"):
    """Number and place, or the seven words of an answer with the name's bytes last."""
    said = SECOND.says("ask", FILE, id_, str(ticks), "all", edition)
    return said.split(b" ", 6) if said.startswith(b"0 ") else said


def shown(said):
    if isinstance(said, bytes):
        return said.decode()
    return " ".join(word.decode() for word in said[:6]) + " " + (said[6].hex() or "-")


def places(s):
    """Where the strings of a pool lie, by their bytes. Counts of up to two bytes."""
    def number(at):
        return (s[at], at + 1) if s[at] < 128 else (s[at] - 128 + 128 * s[at + 1], at + 2)

    found = {}
    at = 5
    while s[at] >= 128:                              # the size, which may be padded
        at += 1
    strings, at = number(at + 1)
    for _ in range(strings):
        length, at = number(at)
        assert s[at:at + length] not in found
        found[s[at:at + length]] = at
        at += length
    return found


def rows_of(s, id_, start, room):
    """The rows that a table of so many numbers has, or number and place."""
    said = ask(id_, start)
    if isinstance(said, bytes):
        return said.decode()
    if room < 7:
        return "15 0"
    rows, at = [], places(s)
    while True:
        bounds = [{b"start": MIN, b"end": MAX}.get(word) or int(word) for word in said[4:6]]
        rows.append([int(word) for word in said[1:4]] + [at[said[6]], len(said[6])] + bounds)
        if 7 * len(rows) + 7 > room or bounds[1] == MAX:
            return rows
        said = ask(id_, bounds[1])
        assert not isinstance(said, bytes)


def case(s, ticks=0, start=0, room=22, id_=b"A", said=None):
    """One line; said is the refusal where the zone isn't found."""
    line = "%d %d %d %s %s" % (ticks, start, room, id_.hex() or "-", s.hex() or "-")
    with open(FILE, "wb") as f:
        f.write(s)
    found = ask(id_, 0)
    if isinstance(found, bytes):
        assert said is None or found.decode() == said, (line, found)
        cases[line] = found.decode()
        return
    assert said is None, (line, found)
    local = SECOND.says("local", FILE, id_, str(ticks)).decode()
    rows = rows_of(s, id_, start, room)
    put = [] if isinstance(rows, str) else [number for row in rows for number in row]
    table = " ".join(str(number) for number in put + [7] * (room - len(put)))
    listed = rows if isinstance(rows, str) else "0 %d" % len(rows)
    over = [] if isinstance(rows, str) else [shown(ask(id_, ticks))]
    parts = [shown(ask(id_, ticks)), shown(ask(id_, ticks, "1")), local, (listed + " " + table).strip()]
    cases[line] = " | ".join(parts + over)


def ticks(t):
    """An instant as a transition, in ticks."""
    return b"\x02" + t.to_bytes(8, "big", signed=True)


def listed(*starts, end=b"\x01", tail=b"\x00"):
    """A zone whose intervals start at these instants, behind one from start of time: names B and C in turn, an hour more with C."""
    odd = [hex_("013030"), hex_("023231")]
    return b"\x00\x02" + count(1 + len(starts)) + b"\x00" + odd[0] + b"".join(ticks(t) + odd[(k + 1) % 2] for k, t in enumerate(starts)) + end + tail


def zone(data):
    return VP + field(1, data)


TAIL = hex_("01" "32" "01" "1c0a0132" "02" "1c030132" "32")
TAILED = zone(listed(-HOUR, end=ticks(0), tail=TAIL))
LISTED = zone(listed(-10**17, -5 * 10**16, 0, 10**17))

# ---- a fixed zone: one row, whatever the room

for room in (0, 1, 6, 7, 8, 13, 14, 21):
    case(UTC, room=room)
for t in (MIN, FIRST - 1, FIRST, -1, 1, LAST, LAST + 1, MAX):
    case(UTC, t)
    case(UTC, 0, t)
case(UTC, FIRST - 1, FIRST - 1)
case(VP + hex_("0103" "000130"))                                     # its name is its ID
case(VP + hex_("0104" "00013001"))                                   # and under edition 1
case(V + field(0, hex_("020001" "41")) + A, id_=b"")                  # an empty ID, and name

# ---- listed intervals and tails: rows from an instant on, instants before, in and behind them

for start in (FIRST, -10**17 - 1, -10**17, -1, 0, 10**17, LAST):
    for room in (6, 7, 13, 14, 22, 35, 36, 64):
        case(LISTED, 0, start, room)
for t in (FIRST, -10**17 - 1, -10**17, -5 * 10**16 - 1, -5 * 10**16, -1, 0, HOUR, 10**17 - 1, 10**17, LAST, LAST + 1):
    case(LISTED, t, -5 * 10**16, 14)
    case(TAILED, t, -HOUR, 28)
for start in (FIRST, -HOUR - 1, -HOUR, -1, 0, 1, 17118468 * 10**9 - 1, 17118468 * 10**9, LAST):
    case(TAILED, 17118468 * 10**9, start, 49)
    case(TAILED, 17118468 * 10**9 + HOUR, start, 63)

# ---- the zone isn't found: a question's refusals but for 14, and none of what stands behind the zone

case(b"", said="2 0")
case(UTC, id_=b"B", said="12 19")
case(UTC, LAST + 1, id_=b"B", said="12 19")
case(UTC + A, id_=b"B", said="12 25")
case(UTC + hex_("0303" "010100"), id_=b"B", said="12 19")            # no aliases
case(UTC + b"\x00", id_=b"B", said="5 19")
case(UTC + b"\x00")
case(UTC + field(1, listed(0)))                                      # a second zone of the ID isn't reached
for s, said in (
    (VP[:3], "2 0"), (UTC[:14], "2 13"), (UTC[:18], "2 13"), (b"\x00\x00\x00\x01" + UTC[4:], "3 0"), (V + A, "6 4"),
    (V + field(0, count(8193)), "4 4"), (VP + P + A, "5 13"), (V + hex_("0003" "018000"), "7 4"), (V + hex_("0003" "0101ff") + A, "8 4"),
    (zone(b"\x00\x03\x30\x00"), "9 13"), (zone(listed(0, 0)), "10 13"), (zone(listed(0) + b"\x00"), "9 13"),
    (zone(listed(end=ticks(0), tail=hex_("01" "3200" "1c0d0132" "00" "1c0a0132" "32"))), "11 13"),
):
    case(s, said=said)
# sizes with zero groups behind them (02, Ask 6)
case(V + b"\x00" + padded(7, 5) + P[2:] + b"\x01" + padded(4, 2) + A[2:])
# pools around the sizes of the index
for strings in (31, 32, 33, 255, 256, 257, 300):
    names = b"".join(text("%03d" % k) for k in range(strings))
    BIG = V + field(0, count(strings) + names) + field(1, count(strings - 1) + listed(0)[1:])
    case(BIG, room=14, id_=b"%03d" % (strings - 1))
    case(BIG, id_=b"000", said="12 %d" % len(BIG))

write_cases("table_cases", cases.items())
