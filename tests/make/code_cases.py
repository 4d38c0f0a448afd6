#!/usr/bin/env python3
"""Writes the input and the expected output of code_cases, from the papers: run it in any folder.

The codes are worked out here from the words of the papers, apart from the code that the cases are run on.

A case is a line: `read KIND BYTES` or `write KIND NUMBER ROOM`, and for a transition the previous one's ticks before the bytes or the
number. BYTES are hex, `-` for none. ROOM is how many bytes of output are lent; they are A5 before the call.
Answers: `0 VALUE LENGTH` of a read, `0 LENGTH OUTPUT` of a write, and `NUMBER 0` of a refusal, of a write with the output behind it.
"""
from stored import count as to_groups, write_cases

MIN, MAX = -(1 << 63), (1 << 63) - 1  # start of time, end of time
FIRST, LAST = -621355968000000000, 2534023007999999999
HOUR, MINUTE = 36000000000, 600000000
Y1800 = -53646624000000000
DAY = 86400000


class No(Exception):
    """A refusal, by its number."""


# Reading: the value and the length, or No.


def groups(s, fifth):
    value = 0
    for i in range(5):
        if i == len(s):
            raise No(9)
        if i == 4 and s[i] > fifth:
            raise No(7)
        value += (s[i] & 0x7F) << (7 * i)
        if s[i] < 0x80:
            if i > 0 and s[i] == 0:
                raise No(7)  # a shorter form says the same
            return value, i + 1
    raise AssertionError


def read_count(s):
    return groups(s, 0x07)


def read_signed(s):
    u, n = groups(s, 0x0F)
    return (u >> 1) ^ -(u & 1), n


UNITS = {1: 1800000, 2: 60000, 3: 1000, 4: 1}  # milliseconds, by the length of the form


def offset_length(total):
    return next(n for n in (1, 2, 3, 4) if total % UNITS[n] == 0)


def read_offset(s):
    if not s:
        raise No(9)
    if s[0] < 0x80:
        length, bits = 1, s[0]
    else:
        prefix = s[0] >> 5
        if prefix == 0b111:
            raise No(7)
        length = {0b100: 2, 0b101: 3, 0b110: 4}[prefix]
        if len(s) < length:
            raise No(9)
        bits = int.from_bytes(bytes([s[0] & 0x1F]) + s[1:length], "big")
    total = bits * UNITS[length]
    if not 1 <= total <= 172799999 or offset_length(total) != length:
        raise No(7)
    return total - DAY, length


def in_range(t):
    return FIRST <= t <= LAST


def read_transition(previous, s):
    v, n = read_count(s)
    if v == 0:
        return MIN, n
    if v == 1:
        return MAX, n
    if v == 2:
        if len(s) < n + 8:
            raise No(9)
        t, n = int.from_bytes(s[n : n + 8], "big", signed=True), n + 8
    elif v < 128:
        raise No(7)
    elif v < 2097152:
        if not in_range(previous):
            raise No(7)
        t = previous + v * HOUR
    else:
        t = Y1800 + v * MINUTE
    if not in_range(t):
        raise No(7)
    return t, n


# Writing: the bytes, or No.


def write_count(v):
    if not 0 <= v <= 2147483647:
        raise No(7)
    return to_groups(v)


def write_signed(v):
    if not -(1 << 31) <= v < 1 << 31:
        raise No(7)
    return to_groups(2 * v if v >= 0 else -2 * v - 1)


def write_offset(ms):
    total = ms + DAY
    if not 1 <= total <= 172799999:
        raise No(7)
    n = offset_length(total)
    prefix = {1: 0, 2: 0b100, 3: 0b101, 4: 0b110}[n]
    return (prefix << (8 * n - 3) | total // UNITS[n]).to_bytes(n, "big")


def write_transition(previous, t):
    if t == MIN:
        return bytes([0])
    if t == MAX:
        return bytes([1])
    if not in_range(t):
        raise No(7)
    hours, part = divmod(t - previous, HOUR)
    if in_range(previous) and part == 0 and 128 <= hours < 2097152:
        return to_groups(hours)
    minutes, part = divmod(t - Y1800, MINUTE)
    if part == 0 and 2097152 <= minutes <= 2147483647:
        return to_groups(minutes)
    return bytes([2]) + t.to_bytes(8, "big", signed=True)


# The papers' worked values: bytes, value. What stands above must give them, both ways.
WORKED = {
    "count": [("EA02", 0x16A), ("FFFFFFFF07", 2147483647)],
    "signed": [("00", 0), ("01", -1), ("02", 1), ("03", -2), ("FFFFFFFF0F", -2147483648)],
    "offset": [("30", 0), ("32", 3600000), ("86F9", 20700000), ("A15135", -75000), ("C5265C01", 1), ("5F", 84600000)],
    "transition": [("B027", 5040 * HOUR), ("8001", 128 * HOUR), ("00", MIN), ("01", MAX)],  # after tick 0
}
READERS = {"count": read_count, "signed": read_signed, "offset": read_offset}
WRITERS = {"count": write_count, "signed": write_signed, "offset": write_offset}


def read_any(kind, s, previous):
    return read_transition(previous, s) if kind == "transition" else READERS[kind](s)


def write_any(kind, v, previous):
    return write_transition(previous, v) if kind == "transition" else WRITERS[kind](v)


for kind, rows in WORKED.items():
    for s, v in rows:
        assert read_any(kind, bytes.fromhex(s), 0) == (v, len(s) // 2), (kind, s)
        assert write_any(kind, v, 0) == bytes.fromhex(s), (kind, s)
for s in "00", "60":  # -24 h and +24 h
    try:
        read_offset(bytes.fromhex(s))
        raise AssertionError
    except No as e:
        assert e.args == (7,)


# The cases.

cases, answers = [], []


def put(case, answer):
    if case not in cases:
        cases.append(case)
        answers.append(answer)


def read(kind, s, previous=None):
    s = bytes.fromhex(s)
    try:
        v, n = read_any(kind, s, previous)
        answer = "0 %d %d" % (v, n)
    except No as e:
        answer = "%d 0" % e.args
    words = [kind] if previous is None else [kind, str(previous)]
    put("read %s %s" % (" ".join(words), s.hex() or "-"), answer)


def write(kind, v, room, previous=None):
    out = bytes([0xA5]) * room
    try:
        s = write_any(kind, v, previous)
        if room < len(s):
            raise No(15)
        out = s + out[len(s) :]
        answer = "0 %d" % len(s)
    except No as e:
        answer = "%d 0" % e.args
    words = [kind] if previous is None else [kind, str(previous)]
    put("write %s %d %d" % (" ".join(words), v, room), "%s %s" % (answer, out.hex() or "-"))


def rooms(kind, v, previous=None):
    """The output just long enough, longer, one short, and none."""
    n = 1
    try:
        n = len(write_any(kind, v, previous))
    except No:
        pass
    for room in sorted({0, n - 1, n, n + 2}):
        write(kind, v, room, previous)


def main():
    # the worked values
    for kind, rows in WORKED.items():
        for s, v in rows:
            previous = 0 if kind == "transition" else None
            read(kind, s, previous)
            rooms(kind, v, previous)
    # Counts and signed counts.
    for kind in "count", "signed":
        for s in "FFFFFFFF07", "FFFFFFFF0F", "EA02FF", "00", "01", "02", "03", "7F", "8001", "FF7F", "808001", "FFFF7F", "80808001", "FFFFFF7F", "8080808001":
            read(kind, s)
        for fifth in "00", "01", "07", "08", "0F", "10", "7F", "80", "FF":
            read(kind, "80808080" + fifth)
            read(kind, "FFFFFFFF" + fifth)
        for i in range(5):
            read(kind, "80" * i)
            read(kind, "FF" * i)
            read(kind, "FF" * i + "00")
            read(kind, "80" * i + "0055")
    for v in 0, 1, 127, 128, 0x16A, 16383, 16384, 2097151, 2097152, 268435455, 268435456, 2147483647, 2147483648, 4294967295, 4294967296, MAX, -1, MIN:
        rooms("count", v)
    for v in 0, -1, 1, -2, 63, -64, 64, -65, 8191, -8192, 8192, 1048575, -1048576, 1048576, 134217727, -134217728, 134217728, 2147483647, -2147483648, 2147483648, -2147483649, MAX, MIN:
        rooms("signed", v)
    # Offsets.
    for s in "00", "60", "01", "61", "7F", "3000":
        read("offset", s)
    for b in range(0xE0, 0x100):
        read("offset", "%02X" % b)
    read("offset", "E0000001")
    read("offset", "FFFFFFFF")
    for s in "", "80", "8C", "9F", "A0", "A151", "BFFF", "BF", "C0", "C526", "C5265C", "DF", "DFFF", "DFFFFF":
        read("offset", s)
    # a later form for a value that fits an earlier one, and one past each range
    for total in 1, 1000, 60000, 1800000, DAY, DAY + 60000, DAY + 1000, 171000000, 172740000, 172799000, 172799999, 172800000, 172800001, 172801000, 172860000, 0:
        for n, prefix, limit in (2, 0x80, 1 << 13), (3, 0xA0, 1 << 21), (4, 0xC0, 1 << 29):
            if total % UNITS[n] == 0 and total // UNITS[n] < limit:
                read("offset", (prefix << (8 * n - 8) | total // UNITS[n]).to_bytes(n, "big").hex())
    for s in "9FFF", "BFFFFF", "DFFFFFFF", "8B3F", "A2A2FF", "CA4CB7FF":
        read("offset", s)
    for ms in 0, 3600000, 20700000, -75000, 1, -1, 84600000, -84600000, 60000, 1000, 1800000, 86340000, 86399000, 86399999, -86399999, 86400000, -86400000, 86400001, -86400001, MAX, MIN:
        rooms("offset", ms)
    # Transitions.
    for s in "B027", "8001", "00", "01", "03", "7F", "FFFF7F", "80808001", "FFFFFFFF07", "FFFFFFFF08", "", "80", "8000", "0055", "800155":
        for previous in 0, MIN, MAX, FIRST, LAST, FIRST - 1, LAST + 1:
            read("transition", s, previous)
    for t in 0, -1, 1, FIRST, FIRST - 1, LAST, LAST + 1, MIN, MAX, Y1800:
        read("transition", "02" + t.to_bytes(8, "big", signed=True).hex(), 0)
    read("transition", "02000000000000000055", MIN)
    for i in range(8):
        read("transition", "02" + "7F" * i, 0)
    # hours that end at the last tick of the range, and one past it
    for hours in 128, 129, 2097151:
        for past in 0, 1:
            read("transition", to_groups(hours).hex(), LAST - hours * HOUR + past)
    for previous in 0, MIN, MAX, FIRST, LAST, FIRST - 1, LAST + 1:
        rooms("transition", MIN, previous)
        rooms("transition", MAX, previous)
        rooms("transition", 128 * HOUR, previous)
    for t in 5040 * HOUR, 127 * HOUR, 2097151 * HOUR, 2097152 * HOUR, 128 * HOUR + 1, 128 * HOUR + MINUTE, -128 * HOUR, 0:
        rooms("transition", t, 0)
    for minutes in 0, 2097151, 2097152, 268435455, 268435456, 2147483647, 2147483648:
        rooms("transition", Y1800 + minutes * MINUTE, MIN)
        write("transition", Y1800 + minutes * MINUTE + 1, 9, MIN)
    # hours come before minutes, and minutes before ticks
    rooms("transition", Y1800 + 2097152 * MINUTE, Y1800 + 2097152 * MINUTE - 128 * HOUR)
    rooms("transition", LAST, LAST - 128 * HOUR)
    rooms("transition", FIRST, MIN)
    for t in FIRST, LAST, FIRST - 1, LAST + 1, MIN + 1, MAX - 1:
        write("transition", t, 9, MIN)
        write("transition", t, 0, MIN)
    write_cases("code_cases", list(zip(cases, answers)))


main()
