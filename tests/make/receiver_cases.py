#!/usr/bin/env python3
"""Writes the input and the expected output of receiver_cases: run it in any folder.

The second reader (tests/second_reader) takes the pieces; it walks all that is held anew for each. Where a case below has a result beside it,
02-change-requests.md gives it, and the second reader must give the same.
The first word of the command line, if there is one, is the second reader's program; else it is built.
"""
from stored import Second, field, hex_, write_cases

SECOND = Second()

V = bytes(4)
POOL = field(0, b"\x00")
UTC = V + hex_("00050103555443" "010400013000")
cases = {}


def case(room, calls, wanted=None):
    """The calls are pieces and None for a reset; wanted is what the last says."""
    words = ["reset" if call is None else call.hex() or "-" for call in calls]
    line = " ".join([str(room)] + words)
    if line not in cases:
        cases[line] = SECOND.says("receive", str(room), *words).decode().replace("\n", ", ")
    said = cases[line].split(", ")
    assert len(said) == len(calls)
    assert wanted is None or said[-1] == wanted, (line[:200], said, wanted)


def cuts(s):
    """The bytes as one piece, one by one, in twos and threes, and with empty pieces between."""
    yield [s]
    for size in (1, 2, 3):
        yield [s[at:at + size] for at in range(0, len(s), size)] or [b""]
    half = len(s) // 2
    yield [b"", s[:half], b"", b"", s[half:], b""]


def place(s, wanted):
    """However the bytes are cut, the place ends alike."""
    for calls in cuts(s):
        for room in (len(s), len(s) + 3):
            case(room, calls, "0 %d %d" % (len(s), wanted))


# ---- "0 in the version, or after 3; the held length if all are whole"

for s, wanted in ((b"", 0), (V[:3], 0), (b"\x01", 0), (b"\x00\x00\x00\x01", 0), (b"\x00\x00\x00\x01" + POOL, 0), (V, 4), (V + POOL, 7)):
    place(s, wanted)

# ---- a field whose head or data is cut: its ID byte

for more, wanted in (
    ("02", 7), ("0280", 7), ("0281", 7), ("0202", 7), ("020200", 7), ("02010003", 10), ("0201000300", 12), ("0201000301", 10), ("020100030101", 13),
):
    place(V + POOL + hex_(more), wanted)

# ---- contents don't stop the walk, and no ID does as 12 does a question

place(V + hex_("0001ff" "0100"), 9)
place(V + POOL + hex_("0201000300"), 12)
place(UTC, 17)
place(UTC + UTC[11:], 23)
place(V + POOL + hex_("0100" "0100" "0800" "0800" "ff00" "ff00"), 19)

# ---- "where 4 to 7 at an ID or size stops the walk, that ID byte for good"

for s, wanted in (
    ("01", 4), ("01" "0003010141", 4), ("ff00", 4),
    ("000100" "00", 7), ("000100" "0200" "0200" "ff00", 9), ("000100" "0700" "0700", 9), ("000100" "0900" "0800" "ff00", 9),
    ("000100" "0100" "0000" "0200", 9),
    ("000100" "02ffffffff07", 7), ("000100" "02ffffffff08" "00", 7), ("000100" "02ffffffff10" "00", 7), ("000100" "0880808002" "00", 7),
    ("000100" "08f9ffff01" "00", 7), ("000100" "08f6ffff01" "00", 7), ("000100" "08f5ffff01" "00", 7),
):
    place(V + hex_(s), wanted)

# ---- "exactly if held and new bytes pass the buffer's length"; "nothing of it kept"

case(4, [V, b"", b"\x00", b""], "0 4 4")
case(4, [V, b"\x00"], "15 0")
case(4, [V[:2], b"\x01\x02\x03", b"\x00\x00"], "0 4 4")
case(4, [V[:2], b"\x01\x02\x03", b"\x00\x01"], "0 4 0")
case(4, [V + b"\x00"], "15 0")
case(16, [UTC], "15 0")
case(16, [UTC[:16], UTC[16:]], "15 0")
case(16, [UTC, UTC[:16]], "0 16 11")
case(17, [UTC[:16], UTC[16:]], "0 17 17")
case(0, [b""], "0 0 0")
case(0, [b"\x00"], "15 0")
case(0, [b"", b"\x00", None, b"\x00", b""], "0 0 0")

# ---- "A reset empties it": what stopped the walk is forgotten, and what was held isn't

case(17, [UTC, None], "0 0 0")
case(17, [UTC, None, b""], "0 0 0")
case(17, [UTC, None, UTC[:11]], "0 11 11")
case(17, [UTC, None, UTC[:16], UTC[16:]], "0 17 17")
case(17, [V + b"\x01", b"\x00" * 12, None, UTC], "0 17 17")
case(17, [b"\x01" * 17, None, UTC], "0 17 17")
case(20, [V + POOL + b"\x09\x00\x08", None, V + POOL + b"\x08\x00"], "0 9 9")
case(20, [V + POOL + b"\x09\x00", None, V + POOL, b"\x08\x00"], "0 9 9")
case(20, [None, None, V], "0 4 4")

# ---- "place and answers end as for one piece": a file in two pieces, cut at every place, with one that doesn't fit between

for k in range(len(UTC) + 1):
    case(len(UTC), [UTC[:k], b"\xff" * (len(UTC) - k + 1), UTC[k:]], "0 17 17")
    case(len(UTC) + 2, [UTC[:k], UTC[k:], b"\x00\x00"], "0 19 17")
    case(len(UTC), [UTC[:k], None, UTC], "0 17 17")

write_cases("receiver_cases", cases.items())
