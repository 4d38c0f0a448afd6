#!/usr/bin/env python3
"""Makes the realistic files tests/data/all.nzd and tests/data/europe.nzd from the compiled zone files of Debian's tzdata 2025b, and from its tables of
places, zone.tab, zone1970.tab and iso3166.tab.

The first word of the command line, if there is one, is their folder; else /usr/share/zoneinfo. Where it has others, nothing is written and the exit
code is 2.

A zone's listed intervals come from the transitions of its compiled file (RFC 8536, the 64-bit part), its tail from the POSIX rule at the end of
that file. A list that goes on as the rule has it is cut where the rule begins to hold.
"""
import collections
import datetime
import os
import re
import sys

from compiled import FOLDER, OtherFiles, RELEASE, compiled, zone_files
from stored import TOP, count, field, offset, signed, text

HOUR = 3600
DAY = 86400
TICKS = 10000000                                # in a second
YEAR_1800 = -5364662400                         # 1800-01-01T00:00Z, in seconds since 1970

Interval = collections.namedtuple("Interval", "start name wall savings")     # start is None for start of time; all in seconds
Rule = collections.namedtuple("Rule", "month day weekday on_or_after added time")
Tail = collections.namedtuple("Tail", "standard standard_name standard_rule daylight daylight_name daylight_rule")


# ---- intervals

def intervals(first, transitions):
    """The intervals of a compiled file. It does not say how much of an offset is savings: daylight time is taken to save what it is ahead of the
    standard time before it, or an hour where that is nothing or more than two hours."""
    made, standard = [], None
    for start, (wall, daylight, name) in [(None, first)] + transitions:
        savings = 0
        if daylight:
            savings = wall - standard
            if savings == 0 or abs(savings) > 2 * HOUR:
                savings = HOUR
        else:
            standard = wall
        # A transition that changes nothing begins no interval.
        if not made or (name, wall, savings) != made[-1][1:]:
            made.append(Interval(start, name, wall, savings))
    return made


# ---- POSIX rules

NAME = r"([A-Za-z]+|<[^>]+>)"
TIME = r"([-+]?\d+(?::\d+){0,2})"
POSIX = re.compile(NAME + TIME + "(?:" + NAME + TIME + r"?,M(\d+)\.(\d)\.(\d)(?:/" + TIME + r")?,M(\d+)\.(\d)\.(\d)(?:/" + TIME + ")?)?")


def seconds(s):
    """A time such as 2, -1 or 2:45."""
    parts = [int(part) for part in s.lstrip("+-").split(":")]
    total = sum(part * unit for part, unit in zip(parts, (HOUR, 60, 1)))
    return -total if s.startswith("-") else total


def yearly(month, week, weekday, time):
    """The rule of a POSIX date, by wall time. The time may lie outside the day, the rule's may not: the day moves, or a day is added."""
    days, time = divmod(seconds(time or "2"), DAY)
    month, week, weekday = int(month), int(week), int(weekday)
    if week == 5 and days > 0:
        # Behind a month's last such day may come another month.
        assert days == 1
        return Rule(month, -1, weekday or 7, False, True, time)
    weekday = (weekday + days) % 7 or 7         # Sunday is 0 there and 7 here
    if week == 5:
        return Rule(month, -1 + days, weekday, False, False, time)
    return Rule(month, 7 * week - 6 + days, weekday, True, False, time)


def tail(posix):
    """The tail of a POSIX rule; none where it has no daylight time."""
    found = POSIX.fullmatch(posix)
    standard_name, standard, name, daylight, *dates = found.groups()
    if name is None:
        return None
    standard = -seconds(standard)               # POSIX counts westward
    daylight = standard + HOUR if daylight is None else -seconds(daylight)
    return Tail(standard, standard_name.strip("<>"), yearly(*dates[4:]), daylight, name.strip("<>"), yearly(*dates[:4]))


def falls(rule, year, before):
    """When a rule falls in a year, in seconds, if the wall offset is `before` until then."""
    if rule.day > 0:
        date = datetime.date(year, rule.month, rule.day)
    else:
        date = datetime.date(year + rule.month // 12, rule.month % 12 + 1, 1) + datetime.timedelta(rule.day)
    ahead = (rule.weekday - date.isoweekday()) % 7
    if not rule.on_or_after and ahead > 0:
        ahead -= 7
    days = date.toordinal() - datetime.date(1970, 1, 1).toordinal() + ahead + rule.added
    return days * DAY + rule.time - before


def cut(listed, behind):
    """The intervals that are listed before those that the tail gives, and the tail's start."""
    given = []
    for year in range(1900, 2101):
        given.append(Interval(falls(behind.standard_rule, year, behind.daylight), behind.standard_name, behind.standard, 0))
        given.append(Interval(falls(behind.daylight_rule, year, behind.standard), behind.daylight_name, behind.daylight,
                              behind.daylight - behind.standard))
    given.sort()
    whole = listed + [interval for interval in given if interval.start > listed[-1].start]
    while whole[-1] == given[-1]:
        start = whole.pop().start
        given.pop()
    return whole, start


# ---- NodaZoneData, in preferred form

def transition(start, before):
    if start is None:
        return count(0)
    if before is not None and (start - before) % HOUR == 0 and 128 <= (start - before) // HOUR < 2097152:
        return count((start - before) // HOUR)
    if (start - YEAR_1800) % 60 == 0 and 2097152 <= (start - YEAR_1800) // 60 < 1 << 31:
        return count((start - YEAR_1800) // 60)
    return count(2) + (start * TICKS).to_bytes(8, "big", signed=True)


class Pool:
    """The pool numbers of strings. The first pass counts how often each is written; the most frequent stand first, equally frequent ones in the
    order of their first use."""

    def __init__(self):
        self.uses = collections.Counter()
        self.numbers = {}

    def number(self, string):
        self.uses[string] += 1
        return count(self.numbers.get(string, 0))

    def data(self):
        strings = [string for string, _ in self.uses.most_common()]
        self.numbers = {string: number for number, string in enumerate(strings)}
        return count(len(strings)) + b"".join(text(string) for string in strings)


def rule_data(rule):
    return (bytes([1 << 5 | rule.weekday << 2 | rule.on_or_after << 1 | rule.added]) + count(rule.month) + signed(rule.day)
            + offset(rule.time * 1000))


def zone_data(pool, id_, zone):
    out = pool.number(id_)
    listed, behind = zone
    if len(listed) == 1 and behind is None:
        return out + b"\x01" + offset(listed[0].wall * 1000) + pool.number(listed[0].name)
    start = None
    if behind:
        listed, start = cut(listed, behind)
    out += b"\x02" + count(len(listed))
    before = None
    for interval in listed:
        out += (transition(interval.start, before) + pool.number(interval.name) + offset(interval.wall * 1000)
                + offset(interval.savings * 1000))
        before = interval.start
    if behind is None:
        return out + count(1) + b"\x00"
    return (out + transition(start, before) + b"\x01" + offset(behind.standard * 1000) + pool.number(behind.standard_name)
            + rule_data(behind.standard_rule) + pool.number(behind.daylight_name) + rule_data(behind.daylight_rule)
            + offset((behind.daylight - behind.standard) * 1000))


# ---- locations

Location = collections.namedtuple("Location", "latitude longitude countries zone comment")     # seconds; (name, code) of each country

ANGLE = r"([-+])(\d{2,3})(\d{2})(\d{2})?"


def table(folder, name):
    """The lines of a table, split at its tabs; those that begin with # are remarks."""
    with open(os.path.join(folder, name), encoding="utf-8") as f:
        return [line.rstrip("\n").split("\t") for line in f if line.strip() and not line.startswith("#")]


def angle(sign, degrees, minutes, seconds_):
    """Degrees, minutes and perhaps seconds, as seconds."""
    whole = int(degrees) * HOUR + int(minutes) * 60 + int(seconds_ or 0)
    return -whole if sign == "-" else whole


def places(folder, name, names):
    """The locations of zone.tab or zone1970.tab, in its order."""
    made = []
    for codes, coordinates, zone, *comment in table(folder, name):
        found = re.fullmatch(ANGLE + ANGLE, coordinates).groups()
        countries = [(names[code], code) for code in codes.split(",")]
        made.append(Location(angle(*found[:4]), angle(*found[4:]), countries, zone, comment[0] if comment else ""))
    return made


def locations_data(pool, locations, numbered):
    """Field 6, whose locations have one country each, or with `numbered` field 7."""
    out = count(len(locations))
    for location in locations:
        out += signed(location.latitude) + signed(location.longitude)
        if numbered:
            out += signed(len(location.countries))
        out += b"".join(pool.number(name) + pool.number(code) for name, code in location.countries)
        out += pool.number(location.zone) + pool.number(location.comment)
    return out


def file_of(zones, links, located):
    """Field 0, the zones by ID, the release as version text and, where there are links, field 3: pairs of alias and zone, by alias; then the locations
    of zone.tab in field 6 and those of zone1970.tab in field 7."""
    pool = Pool()

    def fields():
        made = b"".join(field(1, zone_data(pool, id_, zones[id_])) for id_ in sorted(zones)) + field(2, text(RELEASE))
        if links:
            made += field(3, count(len(links)) + b"".join(pool.number(alias) + pool.number(links[alias]) for alias in sorted(links)))
        made += field(6, locations_data(pool, located[0], False)) + field(7, locations_data(pool, located[1], True))
        return made

    fields()
    strings = pool.data()
    return bytes(4) + field(0, strings) + fields()


def main():
    try:
        words, files = zone_files(sys.argv[1] if len(sys.argv) > 1 else FOLDER)
    except OtherFiles as error:
        print("realistic files: %s" % error)
        return 2
    folder = sys.argv[1] if len(sys.argv) > 1 else FOLDER
    names = dict(table(folder, "iso3166.tab"))
    located = [places(folder, name, names) for name in ("zone.tab", "zone1970.tab")]
    links = {word[2]: word[1] for word in words if word[0] == "L"}
    zones = {}
    for name, s in files.items():
        first, transitions, posix = compiled(s)
        zones[name] = intervals(first, transitions), tail(posix)
    europe = {name: zone for name, zone in zones.items() if name.startswith("Europe/") or name == "Etc/UTC"}
    near = [[location for location in field_ if location.zone in europe] for field_ in located]
    for name, made in ("all.nzd", file_of(zones, links, located)), ("europe.nzd", file_of(europe, {}, near)):
        with open(os.path.join(TOP, "tests", "data", name), "wb") as f:
            f.write(made)
        print("%s: %d bytes" % (name, len(made)))
    return 0


if __name__ == "__main__":
    sys.exit(main())
