#!/usr/bin/env python3
"""Writes the input and the expected output of old_cases, from document 002: run it in any folder.

The codes are worked out here from the words of document 002 and of document 02, apart from the code that the cases are run on.

A case is a line: `read KIND BYTES` or `write KIND VALUE OUTPUT`. BYTES and OUTPUT are hex, `-` for none, and OUTPUT is what is lent; VALUE is a number, for a
text its bytes, for a dictionary two words: how many pairs, and these, each string a count and its bytes. Answers: `0 VALUE LENGTH` of a read, for a text the place of its bytes and how many they are, for a dictionary how many entries it
has and its length; `0 LENGTH OUTPUT` of a write; and `NUMBER 0` of a refusal, of a write with the output behind it.
"""
import random

from stored import write_cases

DAY = 86400000


class No(Exception):
    """A refusal, by its number."""


# The count: the first value of each form, how many bytes it has, and the number of its first code.
FORMS = [(0x00, 1, 0xF0), (0x0F, 1, 0x00), (0x8F, 2, 0x8000), (0x408F, 3, 0xC00000), (0x20408F, 4, 0xE0000000)]
LEADER = 0x1020408F  # from here on five bytes


def write_count(v):
    if not 0 <= v <= 0x7FFFFFFF:
        raise No(7)
    if v >= LEADER:
        return b"\xff" + v.to_bytes(4, "big")
    first, length, code = [form for form in FORMS if form[0] <= v][-1]
    return (code + v - first).to_bytes(length, "big")


def read_count(s):
    if not s:
        raise No(9)
    b = s[0]
    length = 1 if b < 0x80 else 2 if b < 0xC0 else 3 if b < 0xE0 else 4 if b < 0xF0 else 1 if b < 0xFF else 5
    if len(s) < length:
        raise No(9)
    if length == 5:
        v = int.from_bytes(s[1:5], "big")
        if not LEADER <= v <= 0x7FFFFFFF:
            raise No(7)
        return v, 5
    first, _, code = next(form for form in FORMS if form[1] == length and (length > 1 or (form[2] == 0xF0) == (b >= 0xF0)))
    return int.from_bytes(s[:length], "big") - code + first, length


# The offset, in milliseconds.


def write_offset(ms):
    if not -DAY < ms < DAY:
        raise No(7)
    if ms % 1800000 == 0:
        return bytes([0x3F + ms // 1800000])
    if ms % 1000 == 0:
        return (0x83FFFF + ms // 1000).to_bytes(3, "big")
    return b"\xfd" + ms.to_bytes(4, "big", signed=True)


def read_offset(s):
    if not s:
        raise No(9)
    b = s[0]
    if 0x10 <= b <= 0x6E:
        length, ms = 1, (b - 0x3F) * 1800000
    elif 0x82 <= b <= 0x85:
        length = 3
        ms = (int.from_bytes(s[:3], "big") - 0x83FFFF) * 1000
    elif b == 0xFD:
        length, ms = 5, int.from_bytes(s[1:5], "big", signed=True)
    else:
        raise No(7)
    if len(s) < length:
        raise No(9)
    if not -DAY < ms < DAY or len(write_offset(ms)) != length:
        raise No(7)
    return ms, length


# Strings and dictionaries.


def judge(t):
    if len(t) > 1024:
        raise No(4)
    try:
        t.decode("utf-8", "strict")
    except UnicodeDecodeError:
        raise No(8) from None


def write_text(t):
    judge(t)
    return write_count(len(t)) + t


def read_text(s):
    n, a = read_count(s)
    if n > 1024:
        raise No(4)
    if len(s) - a < n:
        raise No(9)
    judge(s[a : a + n])
    return a, n


def read_dictionary(s):
    n, at = read_count(s)
    keys = set()
    for _ in range(n):
        a, size = read_text(s[at:])
        key = s[at + a : at + a + size]
        if key in keys:
            raise No(19)
        keys.add(key)
        at += a + size
        a, size = read_text(s[at:])
        at += a + size
    return n, at


def write_dictionary(pairs):
    """Each key's 4, 8, 19 and each value's 4, 8, left to right."""
    keys, out = set(), write_count(len(pairs))
    for key, value in pairs:
        judge(key)
        if key in keys:
            raise No(19)
        keys.add(key)
        out += write_text(key) + write_text(value)
    return out


READERS = {"count": read_count, "offset": read_offset, "text": read_text, "dictionary": read_dictionary}
WRITERS = {"count": write_count, "offset": write_offset, "text": write_text, "dictionary": write_dictionary}

# The worked values of documents 002 and 02: bytes, value. What stands above must give them, both ways.
WORKED = {
    "count": [("f0", 0), ("fe", 0x0E), ("00", 0x0F), ("7f", 0x8E), ("8000", 0x8F), ("bfff", 0x408E), ("c00000", 0x408F), ("dfffff", 0x20408E),
              ("e0000000", 0x20408F), ("efffffff", 0x1020408E), ("ff1020408f", 0x1020408F), ("ff7fffffff", 0x7FFFFFFF)],
    "offset": [("10", -84600000), ("11", -82800000), ("3f", 0), ("6e", 84600000), ("82ae80", -86399000), ("840000", 1000), ("85517e", 86399000),
               ("fdffffffff", -1), ("fd00000001", 1)],
}
for kind, rows in WORKED.items():
    for s, v in rows:
        assert READERS[kind](bytes.fromhex(s)) == (v, len(s) // 2), (kind, s)
        assert WRITERS[kind](v) == bytes.fromhex(s), (kind, s)


# The cases.

cases = {}


def read(kind, s):
    s = bytes.fromhex(s) if isinstance(s, str) else s
    try:
        answer = "0 %d %d" % READERS[kind](s)
    except No as e:
        answer = "%d 0" % e.args
    cases["read %s %s" % (kind, s.hex() or "-")] = answer


def write(kind, v, room, after=b""):
    out = b"\xa5" * room
    try:
        s = WRITERS[kind](v)
        if room < len(s):
            raise No(15)
        answer = "0 %d %s" % (len(s), (s + out[len(s) :]).hex())
    except No as e:
        answer = "%d 0 %s" % (e.args[0], out.hex() or "-")
    if kind == "text":
        value = v.hex() or "-"
    elif kind == "dictionary":
        lent = b"".join(write_count(len(t)) + t for pair in v for t in pair)
        value = "%d %s" % (len(v), (lent + after).hex() or "-")
    else:
        value = str(v)
    cases["write %s %s %s" % (kind, value, out.hex() or "-")] = answer


def near(*numbers):
    return sorted({n + d for n in numbers for d in (-2, -1, 0, 1, 2) if n + d >= 0})


rows = random.Random(13)
for kind in READERS:
    read(kind, "")
# Every first byte, with nothing behind it and with any bytes; where the form or the range ends, with the least and the largest bytes.
for kind in "count", "offset":
    for b in range(256):
        for rest in b"", rows.randbytes(4)[: 1 + b % 4]:
            read(kind, bytes([b]) + rest)
    for b in 0x00, 0x10, 0x6E, 0x7F, 0x80, 0x82, 0x83, 0x84, 0x85, 0xBF, 0xC0, 0xDF, 0xE0, 0xEF, 0xF0, 0xFD, 0xFE, 0xFF:
        for rest in b"\x00" * 4, b"\xff" * 4:
            read(kind, bytes([b]) + rest)
    for s, _ in WORKED[kind]:
        for n in range(len(s) // 2):
            read(kind, s[: 2 * n])
        read(kind, s + "00")
# The borders of every form, written, in too little room and in more than is needed, and read back.
counts = near(0, 0x0F, 0x8F, 0x408F, 0x20408F, 0x1020408F, 0x7FFFFFFF, 0xFFFFFFFF, 0xFFFFFFFFFFFFFFFD)
offsets = [sign * (n + d) for sign in (-1, 1) for n in (0, 1000, 1800000, 3600000, 84600000, 86399000, DAY) for d in (-1000, -1, 0, 1, 999, 1000)]
offsets += [-(1 << 63), (1 << 63) - 1, -(1 << 31), (1 << 31) - 1]
offsets += [rows.randrange(-DAY, DAY) // unit * unit for unit in (1, 1, 1000, 1000, 60000, 1800000) for _ in range(4)]
for kind, values in ("count", counts), ("offset", sorted(set(offsets))):
    for v in values:
        try:
            s = WRITERS[kind](v)
        except No:
            for room in 0, 6:
                write(kind, v, room)
            continue
        for room in sorted({len(s) - 1, 6}):
            write(kind, v, room)
        read(kind, s)
# Forms that are not preferred, and what is out of range.
for s in "ff1020408e", "ff00000000", "ff80000000", "ffffffffff", "ff80":
    read("count", s)
for s in "83ffff", "840707", "83f8f7", "fd000003e8", "fd00000000", "fd001b7740", "82ae7f", "82ae00", "820000", "85517f", "85ffff", "fd05265c00", "fd05265c01", "fd05265bff", \
        "fdfad9a400", "fdfad9a3ff", "fdfad9a401", "fd7fffffff", "fd80000000", "8200", "fd7fff", "86":
    read("offset", s)
# Strings: cut, too long, not UTF-8, and each in its order.
for t in b"", b"UTC", "Zürich".encode(), b"a" * 14, b"a" * 15, b"a" * 142, b"a" * 143:
    s = write_text(t)
    read("text", s)
    read("text", s + b"\xff")
    read("text", s[:-1])
    for room in sorted({0, len(s) - 1, len(s), len(s) + 2}):
        write("text", t, room)
for t in b"\xff", b"a\x80", b"\xed\xa0\x80":
    for room in 0, 5:
        write("text", t, room)
read("text", write_text(b"a" * 1024))
write("text", b"a" * 1024, 1026)
write("text", b"\xff" * 1025, 0)
for s in "8372", "8371", "f2ff", "f1ff", "f141", "ff1020408f", "ff00000000", "ff80":
    read("text", s)
read("text", write_count(1025) + b"a" * 1025)
# Dictionaries: the second of two equal keys, each fault of a key and of a value, and what follows.
for s in "f0", "f0ffff", "00", "ff7fffffff", "ff80000000", "f2f141f142f0f141", "f2f141f142f0f141ff", "f2f141f142f141", "f2f141f142f1418372", "f2f141f142f141f1ff", \
        "f1f141", "f1f1", "f18372", "f1f1ff", "f1f1418372", "f1f141f1ff", "f1f141f2ff", "f2f0f0f0f0", "f2f0f0f141f0", "f3f141f0f142f0f141f0", "f3f141f0f142f0f142f0", \
        "f3f141f0f142f0f143f0", "f1f158f158", "f2f158f141f1ff", "f1f158f141ff", "f1ff00000000", "f2f141f142":
    read("dictionary", s)
for n in 2, 15, 20:
    pairs = [(b"K%d" % i, b"V%d" % (i % 3)) for i in range(n)]
    for order in pairs, pairs[::-1], rows.sample(pairs, n):
        whole = write_count(n) + b"".join(write_text(k) + write_text(v) for k, v in order)
        read("dictionary", whole)
        read("dictionary", whole[:-1])
        twice = order[:-1] + [(order[rows.randrange(n - 1)][0], b"again")]
        read("dictionary", write_count(n) + b"".join(write_text(k) + write_text(v) for k, v in twice))

# Written: each fault in its turn, with no room and with enough; what follows the pairs is not written.
A, BAD, LONG = b"A", b"\xff", b"a" * 1025
for pairs in [], [(A, b"B")], [(A, b"B"), (b"", A)], [(A, b""), (A, BAD)], [(A, b""), (A, b"B")], [(BAD, A)], [(A, BAD), (A, A)], [(BAD, A), (A, A), (A, A)], \
        [(b"%X" % i, b"V") for i in range(16)], [(b"%X" % (i % 15), b"V") for i in range(16)]:
    for room in 0, 66:
        write("dictionary", pairs, room)
    write("dictionary", pairs, 66, b"\xf1\xff")
    try:
        write("dictionary", pairs, len(write_dictionary(pairs)) - 1)
    except No:
        pass
write("dictionary", [(A, LONG), (A, BAD)], 0)
# A count that no dictionary has, pairs that are not there, and a length that is not preferred.
for line, number in ("2147483648 -", 7), ("18446744073709551615 f0f0", 7), ("2147483647 f141f0", 9), ("1 f141", 9), ("1 f2", 9), ("1 ff00000000", 7):
    cases["write dictionary %s a5a5a5" % line] = "%d 0 a5a5a5" % number

write_cases("old_cases", list(cases.items()))
