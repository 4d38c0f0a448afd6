#!/usr/bin/env python3
"""Compares wall offsets and names of the realistic files with those that Python's zoneinfo finds in the zone files that they were made from.

The questions are asked of the second reader and, where it is built, of the proved program zone_query, as question lines. Both take files of up to
65,536 bytes, so a file is asked in parts: its version, its pool and some of its zones, each field as it stands.
The words of the command line are these programs; else the second reader is built, and zone_query is the one in its crate's out/. Where zoneinfo or those
zone files are missing, one line says so and nothing is compared.
"""
import datetime
import io
import os
import subprocess
import sys
import tempfile

HERE = os.path.dirname(os.path.abspath(__file__))
sys.path.insert(0, os.path.join(HERE, "..", "make"))
from compiled import FOLDER, OtherFiles, compiled, zone_files  # noqa: E402
from stored import TOP, Second  # noqa: E402

TICKS = 10000000                # in a second
ZONES = 40                      # in a part: so a question passes few others
UTC = datetime.timezone.utc
EPOCH = datetime.datetime(1970, 1, 1, tzinfo=UTC)


def seconds(year, month):
    return int((datetime.datetime(year, month, 1, tzinfo=UTC) - EPOCH).total_seconds())


# Years in which the changes are looked for month by month, besides the transitions of the compiled file, which end in 2037.
YEARS = [*range(2036, 2045), 2099, 2100, 2399, 2400, 5000, 9998]


def said(zone, t):
    """Wall offset in milliseconds and name, by zoneinfo."""
    moment = (EPOCH + datetime.timedelta(seconds=t)).astimezone(zone)
    return int(moment.utcoffset().total_seconds() * 1000), moment.tzname()


def instants(zone, transitions):
    """Both sides of each transition and of each change in the years above, and one instant in years from 2 to 9998."""
    asked = {t for start, _ in transitions for t in (start - 1, start)}
    asked.update(seconds(year, 7) for year in range(2, 9999, 101))
    for year in YEARS:
        months = [seconds(year, month) for month in range(1, 13)] + [seconds(year + 1, 1)]
        for low, high in zip(months, months[1:]):
            before = said(zone, low)
            if said(zone, high) == before:
                continue
            while high - low > 1:
                middle = (low + high) // 2
                low, high = (middle, high) if said(zone, middle) == before else (low, middle)
            asked.update((low, high))
    return sorted(asked)


# ---- files and programs

def count(s, at):
    value, shift = 0, 0
    while True:
        value |= (s[at] & 127) << shift
        shift += 7
        at += 1
        if s[at - 1] < 128:
            return value, at


def fields(s):
    """Each field's ID, its data, and all its bytes."""
    at = 4
    while at < len(s):
        place = at
        size, at = count(s, at + 1)
        yield s[place], s[at:at + size], s[place:at + size]
        at += size


def strings(pool):
    number, at = count(pool, 0)
    for _ in range(number):
        length, at = count(pool, at)
        yield pool[at:at + length].decode()
        at += length


def parts(s):
    """Files of some zones of s each, with the IDs of these zones. Between them they have all."""
    (_, pool, front), *rest = fields(s)
    names = list(strings(pool))
    zones = [(names[count(data, 0)[0]], whole) for id_, data, whole in rest if id_ == 1]
    for first in range(0, len(zones), ZONES):
        some = zones[first:first + ZONES]
        yield s[:4] + front + b"".join(whole for _, whole in some), [id_ for id_, _ in some]


def answers(program, file, lines):
    """What a program writes for question lines, line by line."""
    with tempfile.TemporaryDirectory() as folder:
        with open(os.path.join(folder, "zones.nzd"), "wb") as f:
            f.write(file)
        words = [program] if os.path.basename(program) == "zone_query" else [program, "lines", "zones.nzd"]
        done = subprocess.run(words, cwd=folder, input="".join(line + "\n" for line in lines).encode(), capture_output=True, check=True)
    return done.stdout.decode().splitlines()


def main():
    try:
        import zoneinfo
        _, files = zone_files(FOLDER)
    except (ImportError, OtherFiles) as error:
        print("zoneinfo: not compared: %s" % error)
        return 0
    proved = os.path.join(TOP, "crates", "zone_query", "out", "zone_query")
    programs = [os.path.abspath(word) for word in sys.argv[1:]] or [Second.built()] + [proved] * os.path.isfile(proved)
    wanted = {}
    for id_, s in files.items():
        zone = zoneinfo.ZoneInfo.from_file(io.BytesIO(s), id_)
        wanted[id_] = [("%s %d" % (id_, t * TICKS), said(zone, t)) for t in instants(zone, compiled(s)[1])]
    compared = different = 0
    for name in "europe.nzd", "all.nzd":
        with open(os.path.join(HERE, name), "rb") as f:
            whole = f.read()
        for file, ids in parts(whole):
            asked = [question for id_ in ids for question in wanted[id_]]
            for program in programs:
                given = answers(program, file, [line for line, _ in asked])
                assert len(given) == len(asked), (program, len(given), len(asked))
                for (line, (wall, zone_name)), answer in zip(asked, given):
                    words = answer.split(" ", 4)
                    standard = wall - int(words[2]) if len(words) == 5 else None
                    if words[:2] + words[3:] != ["0", str(wall), str(standard), zone_name]:
                        different += 1
                        if different <= 10:
                            print("%s, %s: %s gives %s, zoneinfo %d %s" % (name, line, os.path.basename(program), answer, wall, zone_name))
                compared += len(asked)
    programs = " and ".join(os.path.basename(program) for program in programs)
    if different:
        print("zoneinfo: %d of %d answers of %s differ" % (different, compared, programs))
        return 1
    print("zoneinfo: %d answers of %s, offset and name, all equal" % (compared, programs))
    return 0


if __name__ == "__main__":
    sys.exit(main())
