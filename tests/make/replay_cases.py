#!/usr/bin/env python3
"""Writes the input and the expected output of replay_cases: run it in any folder.

The second reader (tests/second_reader) replays each trace. Where a case below has a result beside it, 02-change-requests.md or a reading of it in
docs/DECISIONS.md gives that, and the second reader must give the same.
The first word of the command line, if there is one, is the second reader's program; else it is built.
"""
import os

from stored import Second, count, field, hex_, offset, parts, text, write_cases

SECOND = Second()
FILE, TRACE = SECOND.file, os.path.join(SECOND.folder.name, "trace")

V = bytes(4)
P = field(0, hex_("03014101420143"))                # A, B and C; ends at 13
A = hex_("010400013000")                            # zone A, fixed, UTC; ends at 19
UTC = V + P + A
FIRST, LAST = -621355968000000000, 2534023007999999999
MIN, MAX = -9223372036854775808, 9223372036854775807
HOURS = 3600000

cases = {}


def case(trace, said=None, file=UTC, spelled=None):
    """One line. said is the record's number, `none` or a refusal, where the readings say so."""
    line = "%s %s" % (file.hex() or "-", spelled or trace.hex() or "-")
    if line not in cases:
        for path, held in (FILE, file), (TRACE, trace):
            with open(path, "wb") as f:
                f.write(held)
        cases[line] = SECOND.says("replay", FILE, TRACE).decode()
    wanted = {None: None, "none": "0 none", "21": "21 0"}.get(said, "0 %s" % said)
    assert wanted is None or cases[line] == wanted, (line[:200], cases[line], wanted)


def four(n):
    return n.to_bytes(4, "big")


def header(records, at, size, names):
    """How many records and where, how many bytes of names and where."""
    return four(records) + four(at) + four(size) + four(names)


def record(shown=0, start=0, length=1, instant=0):
    return instant.to_bytes(8, "big", signed=True) + four(start) + four(length) + shown.to_bytes(4, "big", signed=True)


def trace(*records, names=b"A"):
    """The names behind the records."""
    return header(len(records), 16, len(names), 16 + 20 * len(records)) + b"".join(records) + names


RIGHT, WRONG = record(), record(1)
assert len(RIGHT) == 20 and len(trace(RIGHT)) == 37

# ---- the first record that isn't the file's, from 0

case(trace(), "none")
case(trace(RIGHT), "none")
case(trace(WRONG), "0")
for k in range(4):
    case(trace(*[RIGHT] * k, WRONG, RIGHT, WRONG), "%d" % k)
case(trace(*[RIGHT] * 4), "none")
for shown in (-1, HOURS, 2**31 - 1, -2**31):
    case(trace(RIGHT, record(shown)), "1")

# ---- the wall offset, with its sign [14.17]: standard time is an hour ahead or behind, savings an hour

for sign in (1, -1):
    zone = V + P + field(1, hex_("00" "02" "01" "0000") + offset(2 * HOURS * sign) + offset(HOURS) + hex_("01" "00"))
    case(trace(record(2 * HOURS * sign)), "none", zone)
    for shown in (HOURS * sign, HOURS, -2 * HOURS * sign, 0):
        case(trace(record(shown)), "0", zone)
# a name is a zone ID, any bytes: not UTF-8, longer than any string, an alias
case(trace(RIGHT, record(length=1), names=b"\xff"), "0")
case(trace(record(length=2), names=b"\xc3A"), "0")
case(trace(record(length=1024), names=b"A" * 1024), "0")
case(trace(record(start=1), names=b"AB"), "0", UTC + hex_("0303" "010100"))
case(trace(record(start=1), names=b"BA"), "none")
case(trace(record(start=1, length=2), record(start=0, length=2), names=b"ABB"), "0")

# ---- parts that leave the trace: start or end past the length, even when empty [14.10]

for size in (0, 1, 15):
    case(trace()[:size], "21")
case(header(0, 16, 0, 16), "none")
case(header(0, 17, 0, 16), "21")
case(header(0, 16, 0, 17), "21")
case(header(0, 0, 0, 0), "none")
case(trace(RIGHT)[:36], "21")                                     # the names end one past the length
case(header(1, 17, 1, 36) + bytes(20) + b"A", "0")                # the record ends at the length: an empty name
case(header(1, 18, 1, 36) + bytes(20) + b"A", "21")               # and one past it
case(header(2, 16, 1, 36) + RIGHT + b"A", "21")
case(header(1, 16, 1, 37) + RIGHT + b"A", "21")
case(header(1, 16, 2, 36) + RIGHT + b"A", "21")
case(header(1, 16, 0, 38) + record(length=0) + b"A", "21")
case(header(1, 16, 0, 37) + record(length=0) + b"A", "0")         # the empty ID, which the file lacks
case(trace(record(start=0, length=2)), "21")
case(trace(record(start=1, length=1)), "21")
case(trace(record(start=2, length=0)), "21")
case(trace(record(start=1, length=0)), "0")
NAMELESS = V + field(0, count(1) + text("")) + A
case(trace(record(start=1, length=0)), "none", NAMELESS)
case(trace(record(start=0, length=0), names=b""), "none", NAMELESS)
case(trace(record(start=1, length=0), names=b""), "21", NAMELESS)

# ---- all records are looked at before any is asked [14.11]

case(trace(WRONG, record(start=0, length=2)), "21")
case(trace(RIGHT, RIGHT, record(start=2, length=0)), "21")
case(trace(record(start=0, length=2), WRONG), "21")
case(trace(WRONG, record(start=0, length=2)), "21", b"")

# ---- a question that the file refuses, 14 too, reports its record [14.12]

for instant, said in ((FIRST, "none"), (LAST, "none"), (FIRST - 1, "1"), (LAST + 1, "1"), (MIN, "1"), (MAX, "1")):
    case(trace(RIGHT, record(instant=instant)), said)
for file in (b"", V, V + P, UTC[:18], b"\x00\x00\x00\x01" + UTC[4:], V + A, V + P + P + A, V + P + hex_("0104" "00013003"), V + P + hex_("0104" "00010000")):
    case(trace(RIGHT, RIGHT), "0", file)
case(trace(RIGHT, record(start=1), names=b"AB"), "1", UTC[:13] + A + hex_("01" "04" "010130"))
# as all there is, and only up to the zone: what stands behind it isn't seen
case(trace(RIGHT), "none", UTC + b"\x00")
case(trace(RIGHT), "none", UTC + b"\x01\x80")

# ---- numbers have no sign but for instant and offset [14.13]

case(trace(record(start=0xFFFFFFFF, length=1)), "21")
case(trace(record(start=1, length=0xFFFFFFFF)), "21")
case(trace(record(start=0xFFFFFFFF, length=0xFFFFFFFF)), "21")
case(header(1, 0xFFFFFFFC, 1, 36) + RIGHT + b"A", "21")
case(header(1, 16, 1, 0xFFFFFFFF) + RIGHT + b"A", "21")
case(header(1, 16, 0xFFFFFFFF, 1) + RIGHT + b"A", "21")
case(header(0x80000000, 16, 1, 36) + RIGHT + b"A", "21")
case(header(0xFFFFFFFF, 16, 1, 36) + RIGHT + b"A", "21")
# before tick 0 the zone is an hour ahead
BEFORE = V + P + field(1, hex_("00" "02" "02" "00" "00" "32" "30" "02" "0000000000000000" "00" "30" "30" "01" "00"))
case(trace(record(HOURS, instant=-1), record(instant=0)), "none", BEFORE)
case(trace(record(HOURS, instant=-1), record(HOURS, instant=0)), "1", BEFORE)
case(trace(record(instant=-1)), "0", BEFORE)

# ---- no record: none, whatever the file; 21 still comes first [14.14]

case(trace(), "none", b"")
case(b"", "21", b"")
case(trace(names=b"")[:15], "21", b"")

# ---- places count from the trace's first byte; parts may overlap, bytes of none are ignored, and no product wraps [14.15]

case(header(1, 16, 1, 36) + RIGHT + b"A" + b"\xff" * 9, "none")
case(header(1, 20, 1, 40) + b"\xff" * 4 + RIGHT + b"A", "none")
case(header(1, 17, 1, 16) + b"A" + RIGHT, "none")                 # names before the records
case(header(0xCCCCCCCD, 16, 1, 36) + RIGHT + b"A", "21")          # times 20 it is 4 in 32 bits
case(header(0x0CCCCCCD, 16, 1, 36) + RIGHT + b"A", "21")
case(header(1, 0, 16, 0) + bytes(4), "0")                         # the header as the record
case(header(2, 16, 20, 36) + RIGHT + WRONG, "0")                   # the names are the second record
case(header(1, 16, 4, 32) + record(0x41, start=3), "0")
case(header(1, 16, 4, 32) + record(0x41, start=3), "none", V + P + field(1, b"\x00\x01" + offset(0x41) + b"\x00"))

# ---- many records

for end, said in ((RIGHT, "none"), (WRONG, "1000")):
    front, rest = header(1001, 17, 1, 16) + b"A", end
    case(front + RIGHT * 1000 + rest, said, spelled=parts(front, RIGHT, 1000, rest))
front = header(1002, 17, 1, 16) + b"A"
case(front + RIGHT * 1000 + WRONG + record(start=2), "21", spelled=parts(front, RIGHT, 1000, WRONG + record(start=2)))

write_cases("replay_cases", cases.items())
