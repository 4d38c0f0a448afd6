#!/usr/bin/env python3
"""Writes the input and the expected output of pool_cases in the program part_cases, from the papers: run it in any folder.

01-scope.md: "Field 0 is a count and that many length-and-bytes strings", 8,192 strings, 1,024 bytes a string, and the order of the numbers. Each
refusal stands in the table below with its number written by hand; reading the pool anew, with Python's own UTF-8 codec, must give the same.
"""
from stored import count, write_cases, text


class Refused(Exception):
    pass


def read_count(d, at):
    value = 0
    for i in range(5):
        if at + i == len(d):
            raise Refused(9)
        b = d[at + i]
        if i == 4 and b > 7:
            raise Refused(7)
        value += (b % 128) << (7 * i)
        if b < 128:
            if i > 0 and b == 0:
                raise Refused(7)
            return value, at + i + 1


def read_pool(d):
    """The number or None, the strings as (place, bytes), and the places of their length codes up to the first that is refused."""
    strings, starts = [], []
    try:
        many, at = read_count(d, 0)
        if many > 8192:
            raise Refused(4)
        for _ in range(many):
            size, body = read_count(d, at)
            if size > 1024:
                raise Refused(4)
            if len(d) - body < size:
                raise Refused(9)
            bytes_ = d[body:body + size]
            try:
                bytes_.decode("utf-8", "strict")
            except UnicodeDecodeError:
                raise Refused(8)
            strings.append((body, bytes_))
            starts.append(at)
            at = body + size
        if at != len(d):
            raise Refused(9)
        return None, strings, starts
    except Refused as e:
        return e.args[0], [], starts


cases = []


def case(number, front, unit=b"", times=0, end=b"", id_=b"", field=b""):
    """number: the refusal that the papers give, or None for a good pool."""
    d = front + unit * times + end
    got, strings, starts = read_pool(d)
    assert got == number, (d.hex(), got, number)
    words = [front.hex(), unit.hex(), "%04x" % times, end.hex(), id_.hex(), field.hex()]
    if got is None:
        shown = strings if len(strings) <= 4 else strings[:4] + strings[-1:]
        said = "strings %d" % len(strings)
        said += "".join(" %d:%d:%s%s" % (at, len(b), b.hex(), "*" if b == id_ else "") for at, b in shown)
        if field:
            said += " " + field[1:].hex()
    else:
        said = "refused %d" % got
    places = [str(starts[k]) if k < len(starts) else "-" for k in (0, 1, 2, 3, 8191)]
    cases.append((" ".join(w or "-" for w in words), said + " | " + " ".join(places)))


# the count: cut, not shortest, too large a fifth byte, above 8,192 (before anything else is read)
case(9, b"")
for h in ("80", "ffff", "ffffff", "ffffffff"):
    case(9, bytes.fromhex(h))
for h in ("8000", "808000", "8080808000", "8080808008", "ffffffff0f", "8080808080", "808080808000"):
    case(7, bytes.fromhex(h))
case(4, count(8193))
case(4, count(2147483647))
case(4, count(8193), b"\x00", 8193)
case(4, count(8193) + b"\x80")
case(None, count(8192), b"\x00", 8192)
case(9, count(8192), b"\x00", 8191)
case(9, count(8192), b"\x00", 8192, b"\x00")
case(8, count(8192), b"\x00", 8191, b"\x01\xff")
case(None, count(8192), b"\x00", 8191, text("UTC"), b"UTC")
case(None, count(8191), b"\x01a", 8191, b"", b"a")

# good pools: none, one, empty strings, equal strings at places of their own, more than four, and the file of 01
case(None, b"\x00")
case(None, count(1) + text("UTC"), id_=b"UTC", field=b"\x05Hello")
case(None, count(1) + b"\x00", id_=b"")
case(None, count(3) + text("A") + b"\x00" + text("UTC"), id_=b"UT")
case(None, count(3) + text("AB") + text("CD") + text("AB"), id_=b"AB", field=b"\x00")
case(None, count(4) + text("Europe/Zürich") + text("\u20ac") + text("\U0001f600") + text("a b"), id_="\u20ac".encode("utf-8"))
case(None, count(6) + b"".join(text(s) for s in ("a", "bb", "ccc", "dddd", "eeeee", "ffffff")), id_=b"ffffff", field=b"xyz")
case(None, count(1) + text("a" * 127))
case(None, count(1) + text("a" * 128), id_=b"a" * 128)
case(None, count(1) + count(1024), b"a", 1024, id_=b"a" * 1024)
case(None, count(2) + count(1024), b"\xc3\xa9", 512, text("z"), id_=b"z")

# each refusal of a string, as the first, the middle and the last of three
faults = [
    (9, ""),          # no length
    (9, "80"),        # a length that is cut
    (9, "ffffffff"),
    (7, "8000"),      # not the shortest length
    (7, "8080808008"),
    (7, "ffffffff80"),
    (4, "8108"),      # 1,025 bytes said
    (4, "ffffffff07"),
    (9, "01"),        # bytes that are cut
    (9, "0341"),
    (9, "80086161"),  # 1,024 bytes said, two there
]
bad_text = ["80", "bf", "c0af", "c1bf", "c3", "c328", "e08080", "e09fbf", "e282", "e28228", "eda080", "edbfbf", "f0808080", "f08fbfbf", "f09f98", "f4908080", "f5808080", "ff", "fe", "61ff", "ff61"]
for before in range(3):
    good = b"".join(text("xyz"[:k + 1]) for k in range(before))
    for number, h in faults:
        b = bytes.fromhex(h)
        case(number, count(3) + good + b)
        if number in (4, 7):    # what follows does not matter
            case(number, count(3) + good + b, b"a", 1030)
    for h in bad_text:
        b = bytes.fromhex(h)
        case(8, count(3) + good + count(len(b)) + b)
        case(8, count(3) + good + count(len(b)) + b + text("later") + text("last") + b"left")
    # left to right: the first fault's number, whatever the later ones are
    case(8, count(3) + good + b"\x01\xff" + b"\x81\x08")
    case(4, count(3) + good + b"\x81\x08" + b"\x01\xff")
    case(9, count(3) + good + b"\x05\xff\xff\xff\xff")
case(4, count(1) + count(1025), b"a", 1025)
case(4, count(2) + text("a") + count(1025), b"\xff", 1025)
case(8, count(1) + count(1024), b"a", 1023, b"\xff")
case(9, count(1) + count(1024), b"a", 1023)

# data left over, behind none, one and three strings
case(9, b"\x00\x00")
case(9, count(1) + text("UTC") + b"\x00")
case(9, count(3) + text("a") + text("b") + text("c") + b"\xff")
case(9, count(1) + text("UTC"), b"\x00", 300)

write_cases("pool_cases", cases)
