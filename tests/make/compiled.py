"""The compiled zone files of Debian's tzdata 2025b, from which tests/data was made."""
import hashlib
import os
import struct

FOLDER = "/usr/share/zoneinfo"
RELEASE = "2025b"
SOURCE = "264557b8a2fb4c964c229375c4f5935cc074217c9a003b89216da663508784b8"    # SHA-256 of what is read below, by 2025b-0+deb12u2


class OtherFiles(Exception):
    """The files are missing, or others than those of the release."""


def read(*path):
    with open(os.path.join(*path), "rb") as f:
        return f.read()


def zone_files(folder):
    """The lines of tzdata.zi, which say what is a zone (Z) and what a link (L), as words; and the compiled file of each zone."""
    try:
        source = read(folder, "tzdata.zi")
        words = [line.split() for line in source.decode("utf-8", "replace").splitlines() if line.strip()]
        files = {word[1]: read(folder, word[1]) for word in words if word[0] == "Z"}
    except OSError as error:
        raise OtherFiles(str(error))
    if hashlib.sha256(source + b"".join(files.values())).hexdigest() != SOURCE:
        raise OtherFiles("%s has other zone files than those that they were made from" % folder)
    return words, files


def compiled(s):
    """The first type, the transitions (seconds and type) and the POSIX rule; a type is offset, whether it is daylight time, and name."""

    def header(at):
        assert s[at:at + 4] == b"TZif"
        return struct.unpack(">6L", s[at + 20:at + 44])

    def length(header_, width):
        ut, standard, leap, times, types, letters = header_
        return times * (width + 1) + types * 6 + letters + leap * (width + 4) + standard + ut

    at = 44 + length(header(0), 4)
    head = header(at)
    _, _, _, times, types, letters = head
    at += 44
    behind = at + length(head, 8)
    instants = struct.unpack(">%dq" % times, s[at:at + 8 * times])
    at += 8 * times
    numbers = s[at:at + times]
    at += times
    names = s[at + 6 * types:at + 6 * types + letters]

    def kind(number):
        wall, daylight, place = struct.unpack(">lBB", s[at + 6 * number:at + 6 * number + 6])
        return wall, daylight == 1, names[place:names.index(0, place)].decode()

    return kind(0), [(t, kind(n)) for t, n in zip(instants, numbers)], s[behind:].strip(b"\n").decode()
