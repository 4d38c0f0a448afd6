#!/usr/bin/env python3
"""Writes the input and the expected output of tail_cases in the program part_cases, from the papers: run it in any folder.

The expected output is found by counting: the days of each year and month are counted up from 1970-01-01, a weekday is found by walking
day by day, and the occurrences are those of every year in a window around the instant. Instants are signed ticks since 1970 and offsets
signed milliseconds here; only the printed numbers are counted as the program counts them.
"""
from stored import write_cases

DAY = 864000000000  # ticks
HOUR = 3600000  # milliseconds
FIRST, LAST = -621355968000000000, 2534023007999999999
UTC, WALL, STANDARD = 0, 1, 2
NONE, MONDAY, TUESDAY, WEDNESDAY, THURSDAY, FRIDAY, SATURDAY, SUNDAY = range(8)


def is_leap(year):
    return year % 400 == 0 or (year % 4 == 0 and year % 100 != 0)


def month_days(year, month):
    if month == 2:
        return 29 if is_leap(year) else 28
    return 30 if month in (4, 6, 9, 11) else 31


# the day of 1 January of each year, counted from 1970-01-01
january = {1970: 0}
for year in range(1970, 10012):
    january[year + 1] = january[year] + sum(month_days(year, m) for m in range(1, 13))
for year in range(1969, -400, -1):
    january[year] = january[year + 1] - sum(month_days(year, m) for m in range(1, 13))

# 1970-01-01 was a Thursday; the other weekdays follow it around
week = [THURSDAY, FRIDAY, SATURDAY, SUNDAY, MONDAY, TUESDAY, WEDNESDAY]


def day_of(year, month, day):
    return january[year] + sum(month_days(year, m) for m in range(1, month)) + day - 1


def at(year, month, day, ms=0):
    return day_of(year, month, day) * DAY + ms * 10000


class Rule:
    def __init__(self, mode, weekday, after, plus, month, day, time):
        self.mode, self.weekday, self.after, self.plus = mode, weekday, after, plus
        self.month, self.day, self.time = month, day, time

    def fields(self):
        byte = self.mode * 32 + self.weekday * 4 + self.after * 2 + self.plus
        zigzag = 2 * self.day if self.day >= 0 else -2 * self.day - 1
        return [byte, self.month, zigzag, self.time + 24 * HOUR]

    def wrong(self):
        longest, shortest = month_days(2024, self.month), month_days(2023, self.month)
        return not (self.mode <= 2 and 1 <= self.month <= 12 and (1 <= self.day <= longest or -shortest <= self.day <= -1) and 0 <= self.time < 24 * HOUR)

    def occurrence(self, year, offset):
        if self.day > 0:
            last = month_days(year, self.month)
            date = self.day if self.day <= last else last
        else:
            date = [*range(1, month_days(year, self.month) + 1)][self.day]
        day = day_of(year, self.month, date)
        if self.weekday:
            while week[day % 7] != self.weekday:
                day += 1 if self.after else -1
        if self.plus:
            day += 1
        return day * DAY + self.time * 10000 - offset * 10000


class Tail:
    def __init__(self, offset, savings, standard, daylight, start=FIRST):
        self.offset, self.savings, self.standard, self.daylight, self.start = offset, savings, standard, daylight, start

    def wrong(self):
        return self.standard.wrong() or self.daylight.wrong() or not -24 * HOUR < self.offset + self.savings < 24 * HOUR

    def occurrences(self, years):
        wall = self.offset + self.savings
        return ([self.standard.occurrence(y, {UTC: 0, WALL: wall, STANDARD: self.offset}[self.standard.mode]) for y in years],
                [self.daylight.occurrence(y, {UTC: 0, WALL: self.offset, STANDARD: self.offset}[self.daylight.mode]) for y in years])

    def answer(self, instant):
        """start, end (None for end of time), wall offset, savings, whether daylight"""
        middle = next(y for y in range(-3, 10011) if january[y] * DAY <= instant < january[y + 1] * DAY)
        standard, daylight = self.occurrences(range(middle - 9, middle + 10))
        next_standard = min(x for x in standard if x > instant)
        next_daylight = min(x for x in daylight if x > instant)
        start = max(self.start, max(x for x in standard + daylight if x <= instant))
        end = min(next_standard, next_daylight)
        if end > LAST:
            end = None
        if next_daylight > next_standard:
            return start, end, self.offset + self.savings, self.savings, True
        return start, end, self.offset, 0, False


# ticks since 1 January of year -399
ORIGIN = january[-399] * DAY


def question(tail, instant):
    numbers = [tail.offset + 24 * HOUR, tail.savings + 24 * HOUR, *tail.standard.fields(), *tail.daylight.fields(), tail.start - ORIGIN, instant - ORIGIN]
    return " ".join(map(str, numbers))


def reply(tail, instant):
    if tail.wrong():
        return "11"
    start, end, wall, savings, daylight = tail.answer(instant)
    end = LAST + 1 if end is None else end
    return "%d %d %d %d %s" % (start - ORIGIN, end - ORIGIN, wall + 24 * HOUR, savings + 24 * HOUR, "D" if daylight else "S")


def around(tail, years):
    """each change of these years, the tick before it and the tick after it"""
    for changes in tail.occurrences(years):
        for x in changes:
            for t in (x - 1, x, x + 1):
                if max(tail.start, FIRST) <= t <= LAST:
                    yield t


def cases():
    last_march = Rule(UTC, SUNDAY, 0, 0, 3, -1, HOUR)
    last_october = Rule(UTC, SUNDAY, 0, 0, 10, -1, HOUR)
    second_march = Rule(WALL, SUNDAY, 1, 0, 3, 8, 2 * HOUR)
    first_november = Rule(WALL, SUNDAY, 1, 0, 11, 1, 2 * HOUR)
    london = Tail(0, HOUR, last_october, last_march)
    new_york = Tail(-5 * HOUR, HOUR, first_november, second_march)
    # the worked rules, at their changes
    for tail in (london, new_york):
        for t in around(tail, [2024]):
            yield tail, t
        for t in (FIRST, FIRST + 1, LAST - 1, LAST, -1, 0, 1):
            yield tail, t
    # south of the equator, the savings over the new year; a Friday start by standard time; savings below zero
    for tail in (Tail(12 * HOUR, HOUR, Rule(STANDARD, SUNDAY, 1, 0, 4, 1, 2 * HOUR), Rule(STANDARD, SUNDAY, 0, 0, 9, -1, 2 * HOUR)),
                 Tail(2 * HOUR, HOUR, Rule(WALL, SUNDAY, 0, 0, 10, -1, 2 * HOUR), Rule(STANDARD, FRIDAY, 0, 0, 3, -5, 2 * HOUR)),
                 Tail(HOUR, -HOUR, last_march, last_october)):
        for t in around(tail, [1999, 2000]):
            yield tail, t
    # rules that spill over the year's end, both ways, with P and with long offsets
    for mode in (UTC, WALL, STANDARD):
        for plus in (0, 1):
            for offset in (-24 * HOUR + 1, 24 * HOUR - 1):
                before = Rule(mode, SATURDAY, 0, plus, 1, 1, 0)
                after = Rule(mode, MONDAY, 1, plus, 12, 31, 24 * HOUR - 1)
                tail = Tail(offset, HOUR if offset < 0 else -HOUR, before, after)
                new_year = at(2022 + mode, 1, 1)
                for t in (new_year - 5 * DAY, new_year - 1, new_year, new_year + 8 * DAY):
                    yield tail, t
                tail = Tail(offset, 0, after, before)
                for t in (new_year - 7 * DAY, new_year + 7 * DAY):
                    yield tail, t
    # 31 December and 1 January without a weekday, P set: the next year's first days
    tail = Tail(0, HOUR, Rule(UTC, NONE, 0, 1, 12, 31, 0), Rule(WALL, NONE, 1, 1, 12, -1, 12 * HOUR))
    for year in (1, 2023, 9998, 9999):
        for t in (at(year, 12, 31, 24 * HOUR - 1), at(year, 1, 1), at(year, 1, 1, 12 * HOUR), at(year, 1, 2)):
            yield tail, t
    # 29 February, with and without a weekday, on or after and on or before, P set, in common and leap years
    for weekday, after, plus in ((NONE, 0, 0), (NONE, 1, 1), (SUNDAY, 1, 0), (SUNDAY, 0, 0), (MONDAY, 1, 1), (MONDAY, 0, 1)):
        tail = Tail(0, HOUR, Rule(UTC, weekday, after, plus, 2, 29, HOUR), Rule(UTC, NONE, 0, 0, 8, 1, HOUR))
        for year in (1900, 2000, 2021, 2024):
            for t in (at(year, 2, 28, HOUR), at(year, 2, 28, 24 * HOUR), at(year, 3, 1, HOUR)):
                yield tail, t
    # negative days: the last, and down to the shortest length
    for month, day in ((1, -31), (2, -1), (2, -28), (4, -30), (6, -15), (12, -31)):
        tail = Tail(3 * HOUR, HOUR, Rule(WALL, NONE, 0, 0, month, day, 0), Rule(WALL, TUESDAY, 1, 0, month, day, 0))
        for year in (2023, 2024):
            for t in (at(year, month, 1) - 3 * HOUR * 10000, at(year, month, 14), at(year, month, 28)):
                yield tail, t
    # rules that don't alternate: both on one day, both in one week, and both at one instant
    for tail in (Tail(0, HOUR, last_march, last_march), Tail(0, HOUR, Rule(WALL, SUNDAY, 0, 0, 3, -1, HOUR), Rule(WALL, SUNDAY, 0, 0, 3, -1, HOUR)),
                 Tail(0, HOUR, Rule(UTC, FRIDAY, 1, 0, 5, 1, 0), Rule(UTC, MONDAY, 1, 0, 5, 4, 0)), Tail(0, HOUR, Rule(UTC, NONE, 0, 0, 1, 1, 0), Rule(UTC, NONE, 0, 1, 12, 31, 0)),
                 Tail(0, HOUR, Rule(UTC, SUNDAY, 1, 0, 1, 1, 0), Rule(UTC, NONE, 0, 0, 1, 4, 0))):
        for t in around(tail, [2009, 2010]):
            yield tail, t
    # the start of the tail: on a change, between changes, a tick before and after one
    change = at(2024, 3, 31, HOUR)
    for start in (change - 1, change, change + 1, at(2024, 1, 1), at(9999, 12, 31)):
        tail = Tail(0, HOUR, last_october, last_march, start)
        for t in (start, start + 1, start + 300 * DAY, LAST):
            if t <= LAST:
                yield tail, t
    # years 1 and 9999: changes just inside and just outside the range
    for tail in (Tail(0, HOUR, Rule(UTC, NONE, 0, 0, 1, 1, 0), Rule(UTC, NONE, 0, 0, 12, 31, 24 * HOUR - 1)),
                 Tail(HOUR, HOUR, Rule(WALL, NONE, 0, 0, 1, 1, 0), Rule(WALL, NONE, 0, 0, 12, 31, 24 * HOUR - 1)),
                 Tail(-HOUR, HOUR, Rule(STANDARD, NONE, 0, 0, 1, 1, 0), Rule(STANDARD, NONE, 0, 0, 12, 31, 24 * HOUR - 1)),
                 Tail(HOUR, HOUR, last_march, last_october)):
        for t in (FIRST, FIRST + 1, FIRST + 400 * DAY, LAST - 400 * DAY, LAST - 10000, LAST):
            yield tail, t
    # fields at the ends of their ranges, and past them
    for rule in (Rule(3, NONE, 0, 0, 1, 1, 0), Rule(4, NONE, 0, 0, 1, 1, 0), Rule(6, SUNDAY, 1, 1, 1, 1, 0), Rule(0, NONE, 1, 0, 1, 1, 0), Rule(UTC, NONE, 0, 0, 0, 1, 0),
                 Rule(UTC, NONE, 0, 0, 13, 1, 0), Rule(UTC, NONE, 0, 0, 1, 0, 0), Rule(UTC, NONE, 0, 0, 2, 30, 0), Rule(UTC, NONE, 0, 0, 2, -29, 0),
                 Rule(UTC, NONE, 0, 0, 4, 31, 0), Rule(UTC, NONE, 0, 0, 4, -31, 0), Rule(UTC, NONE, 0, 0, 12, 31, 0), Rule(UTC, NONE, 0, 0, 12, 32, 0),
                 Rule(UTC, NONE, 0, 0, 1, 1, 24 * HOUR - 1), Rule(UTC, NONE, 0, 0, 1, 1, 24 * HOUR - HOUR), Rule(UTC, NONE, 0, 0, 1, 1, -1)):
        yield Tail(0, HOUR, rule, last_march), at(2020, 6, 1)
        yield Tail(0, HOUR, last_october, rule), at(2020, 6, 1)
    for offset, savings in ((23 * HOUR, HOUR - 1), (23 * HOUR, HOUR), (-23 * HOUR, -HOUR + 1), (-23 * HOUR, -HOUR), (24 * HOUR - 1, -24 * HOUR + 1), (1 - 24 * HOUR, 24 * HOUR - 1)):
        yield Tail(offset, savings, last_october, last_march), at(2020, 6, 1)
        yield Tail(offset, savings, second_march, first_november), at(2020, 1, 1)
    # any rules, at and around their changes
    seed = 20240331

    def pick(low, high):
        nonlocal seed
        seed = (seed * 6364136223846793005 + 1442695040888963407) % 2**64
        return low + (seed >> 33) % (high - low + 1)

    def any_rule():
        month = pick(1, 12)
        day = pick(1, month_days(2024, month)) if pick(0, 2) else -pick(1, month_days(2023, month))
        return Rule(pick(0, 2), pick(0, 7), pick(0, 1), pick(0, 1), month, day, pick(0, 24 * HOUR - 1) if pick(0, 1) else pick(0, 47) * HOUR // 2)

    for n in range(45):
        offset = pick(1 - 24 * HOUR, 24 * HOUR - 1) if n % 3 == 0 else pick(-24, 28) * HOUR // 2
        savings = pick(max(1 - 24 * HOUR, 1 - 24 * HOUR - offset), min(24 * HOUR - 1, 24 * HOUR - 1 - offset)) if n % 3 == 1 else HOUR
        year = pick(1, 9999)
        tail = Tail(offset, savings, any_rule(), any_rule(), at(pick(1, year), pick(1, 12), pick(1, 28)))
        if tail.wrong():
            yield tail, at(2000, 1, 1)
            continue
        changes = list(around(tail, [year]))
        yield from ((tail, changes[pick(0, len(changes) - 1)]) for _ in range(2) if changes)
        yield tail, max(tail.start, at(year, pick(1, 12), pick(1, 28), pick(0, 24 * HOUR - 1)))


write_cases("tail_cases", list(dict.fromkeys((question(t, i), reply(t, i)) for t, i in cases())))
