//! Yearly rules, and the tail made of two of them.

use crate::codes::{Cursor, DAY_MS};
use crate::number::BAD_RECURRENCE;
use crate::zone::{read_mention, Interval, Visit};
use crate::{END_OF_TIME, LAST};

const TICKS_PER_MS: i64 = 10_000;
const TICKS_PER_DAY: i64 = 864_000_000_000;

/// Whether `year` has a 29 February.
fn is_leap(year: i64) -> bool {
    year % 4 == 0 && (year % 100 != 0 || year % 400 == 0)
}

/// The days of a month (1 to 12).
fn month_length(month: u32, leap: bool) -> i64 {
    match month {
        2 => 28 + i64::from(leap),
        4 | 6 | 9 | 11 => 30,
        _ => 31,
    }
}

/// Days from 1970-01-01 to the first of a month. Years are taken to begin in March, so that a leap day comes last.
fn first_of_month(year: i64, month: u32) -> i64 {
    let (year, months) = if month > 2 { (year, month - 3) } else { (year - 1, month + 9) };
    let days = (153 * i64::from(months) + 2) / 5;
    year * 365 + year.div_euclid(4) - year.div_euclid(100) + year.div_euclid(400) + days - 719_468
}

/// The UTC year of an instant.
fn year_of(ticks: i64) -> i64 {
    let days = ticks.div_euclid(TICKS_PER_DAY) + 719_468;
    let era = days.div_euclid(146_097);
    let day = days.rem_euclid(146_097);
    let year = (day - day / 1_460 + day / 36_524 - day / 146_096) / 365;
    let day_of_year = day - (365 * year + year / 4 - year / 100);
    // Counted from March: January and February, from day 306 on, belong to the next year.
    era * 400 + year + i64::from(day_of_year >= 306)
}

#[derive(Clone, Copy, PartialEq, Eq)]
struct Rule {
    mode: u8,
    weekday: u8,
    on_or_after: bool,
    extra_day: bool,
    month: u32,
    day: i32,
    time: i32,
}

impl Rule {
    fn read(cursor: &mut Cursor) -> Result<Rule, u8> {
        let byte = cursor.byte()?;
        if byte >= 0x60 {
            return Err(BAD_RECURRENCE);
        }
        let month = cursor.count()?;
        if !(1..=12).contains(&month) {
            return Err(BAD_RECURRENCE);
        }
        let day = cursor.signed_count()?;
        let (shortest, longest) = (month_length(month, false), month_length(month, true));
        if day == 0 || !(-shortest..=longest).contains(&i64::from(day)) {
            return Err(BAD_RECURRENCE);
        }
        let time = cursor.offset()?;
        if time < 0 {
            return Err(BAD_RECURRENCE);
        }
        let (on_or_after, extra_day) = (byte & 2 != 0, byte & 1 != 0);
        Ok(Rule { mode: byte >> 5, weekday: byte >> 2 & 7, on_or_after, extra_day, month, day, time })
    }

    /// The rule's instant in `year`, if wall times and standard times have these offsets.
    fn occurrence(&self, year: i64, standard: i32, other_wall: i32) -> i64 {
        let first = first_of_month(year, self.month);
        let length = month_length(self.month, is_leap(year));
        let day = i64::from(self.day);
        let mut date = if day > 0 { first - 1 + day.min(length) } else { first + length + day };
        if self.weekday != 0 {
            // Day 0 was a Thursday, 4.
            let ahead = (i64::from(self.weekday) - 4 - date).rem_euclid(7);
            date += if self.on_or_after || ahead == 0 { ahead } else { ahead - 7 };
        }
        let subtract = match self.mode {
            0 => 0,
            1 => other_wall,
            _ => standard,
        };
        let ms = i64::from(self.time) - i64::from(subtract);
        (date + i64::from(self.extra_day)) * TICKS_PER_DAY + ms * TICKS_PER_MS
    }
}

/// What holds behind a zone's listed intervals.
#[derive(Clone, Copy)]
pub struct Tail {
    standard: i32,
    standard_name: u32,
    standard_rule: Rule,
    daylight_name: u32,
    daylight_rule: Rule,
    savings: i32,
}

impl Tail {
    pub fn read(cursor: &mut Cursor, pool_count: u32, visit: &mut impl Visit) -> Result<Tail, u8> {
        let standard = cursor.offset()?;
        let standard_name = read_mention(cursor, pool_count, visit)?;
        let standard_rule = Rule::read(cursor)?;
        let daylight_name = read_mention(cursor, pool_count, visit)?;
        let daylight_rule = Rule::read(cursor)?;
        let savings = cursor.offset()?;
        if (standard + savings).abs() >= DAY_MS {
            return Err(BAD_RECURRENCE);
        }
        Ok(Tail { standard, standard_name, standard_rule, daylight_name, daylight_rule, savings })
    }

    /// Whether both show the same at every instant that both hold, since their parts are the same; names are compared by `same_name`.
    pub fn same(&self, other: &Tail, same_name: impl Fn(u32, u32) -> bool) -> bool {
        self.standard == other.standard
            && self.savings == other.savings
            && self.standard_rule == other.standard_rule
            && self.daylight_rule == other.daylight_rule
            && same_name(self.standard_name, other.standard_name)
            && same_name(self.daylight_name, other.daylight_name)
    }

    /// The wall offsets of its two rules.
    pub fn wall_offsets(&self) -> [i32; 2] {
        [self.standard, self.standard + self.savings]
    }

    /// The interval that holds `ticks`, which is not before the tail's start, and its end.
    pub fn at(&self, tail_start: i64, ticks: i64) -> (Interval, i64) {
        let year = year_of(ticks);
        let daylight_wall = self.standard + self.savings;
        let (last_standard, next_standard) =
            around(ticks, year, |year| self.standard_rule.occurrence(year, self.standard, daylight_wall));
        let (last_daylight, next_daylight) =
            around(ticks, year, |year| self.daylight_rule.occurrence(year, self.standard, self.standard));
        let start = last_standard.max(last_daylight).max(tail_start);
        let end = next_standard.min(next_daylight);
        let interval = if next_daylight > next_standard {
            Interval { start, name: self.daylight_name, wall: daylight_wall, savings: self.savings }
        } else {
            Interval { start, name: self.standard_name, wall: self.standard, savings: 0 }
        };
        (interval, if end <= LAST { end } else { END_OF_TIME })
    }
}

/// The latest occurrence up to `ticks` and the earliest after it. `year` is that of `ticks`, and a rule spills out of
/// its year by days only, so the two are of neighbouring years from two before to two after.
fn around(ticks: i64, year: i64, occurrence: impl Fn(i64) -> i64) -> (i64, i64) {
    let this = occurrence(year);
    if this > ticks {
        let before = occurrence(year - 1);
        if before <= ticks {
            (before, this)
        } else {
            (occurrence(year - 2), before)
        }
    } else {
        let after = occurrence(year + 1);
        if after > ticks {
            (this, after)
        } else {
            (after, occurrence(year + 2))
        }
    }
}
