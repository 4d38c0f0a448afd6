#!/usr/bin/env python3
"""Writes the input and the expected output of text_cases in the program part_cases, from the papers: run it in any folder.

01-scope.md, "Small codes" and "Order", gives the lengths and the order of the numbers; Python's own UTF-8 codec, which is RFC 3629's, judges the bytes.
"""
from stored import count, write_cases


def good(b):
    try:
        b.decode("utf-8", "strict")
        return True
    except UnicodeDecodeError:
        return False


def read_count(s):
    """(number, None) for a refusal, else (None, (value, length))."""
    value = 0
    for i in range(5):
        if i == len(s):
            return 9, None
        b = s[i]
        if i == 4 and b > 7:
            return 7, None
        value += (b % 128) << (7 * i)
        if b < 128:
            return (7, None) if i > 0 and b == 0 else (None, (value, i + 1))
    raise AssertionError


def read(s):
    bad, got = read_count(s)
    if bad is not None:
        return "refused %d " % bad
    n, a = got
    if n > 1024:
        return "refused 4 "
    if len(s) - a < n:
        return "refused 9 "
    if not good(s[a:a + n]):
        return "refused 8 "
    return "part %d %d %s" % (a, n, s[a:a + n].hex())


def write(t, out):
    if len(t) > 1024:
        return "refused 4 " + out.hex()
    if not good(t):
        return "refused 8 " + out.hex()
    code = count(len(t)) + t
    if len(code) > len(out):
        return "refused 15 " + out.hex()
    return "length %d %s" % (len(code), (code + out[len(code):]).hex())


cases = []


def utf8(b):
    cases.append(("u " + b.hex(), "yes" if good(b) else "no"))


def reading(s):
    cases.append(("r " + s.hex(), read(s)))


def writing(t, out):
    cases.append(("w %s %s" % (t.hex(), out.hex()), write(t, out)))


# UTF-8: every first byte alone, and before one, two and three tail bytes
for b in range(256):
    for tail in (b"", b"\x80", b"\xbf", b"\x80\x80", b"\xbf\xbf", b"\x80\x80\x80", b"\xbf\xbf\xbf"):
        utf8(bytes([b]) + tail)
# the bounds of each row's second byte, and of the later ones
for b in (0xC2, 0xDF, 0xE0, 0xE1, 0xEC, 0xED, 0xEE, 0xEF, 0xF0, 0xF1, 0xF3, 0xF4):
    tails = 1 if b < 0xE0 else 2 if b < 0xF0 else 3
    for x in (0x7F, 0x80, 0x8F, 0x90, 0x9F, 0xA0, 0xBF, 0xC0):
        utf8(bytes([b, x]) + b"\x80" * (tails - 1))
        for i in range(1, tails):
            second = 0x90 if b == 0xF0 else 0xA0 if b == 0xE0 else 0x80
            rest = [second] + [0x80] * (tails - 1)
            rest[i] = x
            utf8(bytes([b] + rest))
# the code points at each bound, and one beside it: overlong forms and surrogates by hand
for c in (0, 0x7F, 0x80, 0x7FF, 0x800, 0xFFF, 0x1000, 0xCFFF, 0xD000, 0xD7FF, 0xE000, 0xFFFF, 0x10000, 0x3FFFF, 0x40000, 0xFFFFF, 0x100000, 0x10FFFF):
    utf8(chr(c).encode("utf-8"))
    utf8(b"a" + chr(c).encode("utf-8") + b"z")
for h in ("c080", "c1bf", "e08080", "e09fbf", "f0808080", "f08fbfbf", "eda080", "edbfbf", "edafbfedb080", "f4908080", "f5808080", "f888808080", "fc8480808080", "fe", "ff"):
    utf8(bytes.fromhex(h))
# characters that are cut, and cut by another character
for whole in ("\u00e9", "\u20ac", "\U0001f600"):
    b = whole.encode("utf-8")
    for k in range(len(b)):
        utf8(b[:k])
        utf8(b[:k] + b"x")
        utf8(b"long run of letters before it " + b[:k] + b)

# reading: the length's own refusals, then 4, 9 and 8, each before the next
reading(b"")
for h in ("80", "8080", "808080", "80808080", "8000", "ff00", "8080808000", "8080808008", "ffffffff0f", "ffffffff80", "ffffffff07", "818080808000"):
    reading(bytes.fromhex(h))
for h in ("00", "00ff", "0141", "014142", "0355544300", "035554", "03555443", "01ff", "02c3a9", "01c3", "0180", "0400000000"):
    reading(bytes.fromhex(h))
long_text = ("Europe/Zürich " * 100).encode("utf-8")[:1024]
assert good(long_text) and len(long_text) == 1024
reading(count(127) + b"a" * 127)
reading(count(128) + b"a" * 128)
reading(count(128) + b"a" * 127)
reading(count(1024) + long_text)
reading(count(1024) + long_text + b"more")
reading(count(1024) + long_text[:1023])
reading(count(1024) + long_text[:1023] + b"\xff")
reading(count(1024) + b"\xff" * 1023)
reading(count(1025) + b"a" * 1025)
reading(count(1025))
reading(count(1025) + b"\xff" * 3)
reading(count(2147483647))

# writing: 4, 8, 15 each before the next; exact room, one short, none, and more than enough
for t in (b"", b"U", b"UTC", "Zürich".encode("utf-8"), b"a" * 127, b"a" * 128, long_text):
    size = len(count(len(t)) + t)
    for room in sorted({0, size - 1, size, size + 3}):
        writing(t, b"\xaa" * room)
for t in (b"\xff", b"ab\xc3", b"\xed\xa0\x80", long_text[:1023] + b"\xc3"):
    writing(t, b"")
    writing(t, b"\xaa" * 8)
writing(b"a" * 1025, b"")
writing(b"\xff" * 1025, b"\xaa" * 4)

write_cases("text_cases", cases)
