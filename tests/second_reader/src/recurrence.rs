//! Yearly rules and the tail made of two of them.

use crate::calendar::{day_number, longest_length, month_length, shortest_length, weekday, year_of};
use crate::data::Data;
use crate::number::Number;
use crate::transition::{in_range, Transition, TICKS_PER_DAY, TICKS_PER_MS};

const DAY_MS: i32 = 86_400_000;

/// "MM: 0 UTC, 1 wall, 2 standard."
#[derive(Clone, Copy, Debug, PartialEq, Eq)]
pub enum Mode {
    /// The time of day is UTC.
    Utc,
    /// The time of day is in the wall offset of the other rule.
    Wall,
    /// The time of day is in the standard offset.
    Standard,
}

/// "Rule: a byte 0MMDDDAP, month as count, day as signed count, time of day as an offset code".
#[derive(Clone, Copy, Debug, PartialEq, Eq)]
pub struct Rule {
    /// What is subtracted from the date and time.
    pub mode: Mode,
    /// "DDD: 0 none, 1 Monday to 7 Sunday."
    pub weekday: u8,
    /// A: "on or after (A set) or on or before". "A without a weekday is allowed and does nothing."
    pub on_or_after: bool,
    /// P: "add a day if P is set".
    pub extra_day: bool,
    /// 1 to 12.
    pub month: u32,
    /// "1 to the month's longest length, or -1 (last) down to minus its shortest length"
    pub day: i32,
    /// "from 00:00 to below 24:00", in milliseconds
    pub time: i32,
}

/// Reads one rule. Each part is judged as soon as it is read (reading 5).
pub(crate) fn read_rule(data: &mut Data) -> Result<Rule, Number> {
    let byte = data.byte()?;
    // "A set top bit or MM 3 gives 11"
    let mode = match byte >> 5 {
        0 => Mode::Utc,
        1 => Mode::Wall,
        2 => Mode::Standard,
        _ => return Err(Number::BadRecurrence),
    };
    let month = data.count()?;
    if !(1..=12).contains(&month) {
        return Err(Number::BadRecurrence);
    }
    let month = month as u32;
    let day = data.signed_count()?;
    let from_start = 1..=longest_length(month);
    let from_end = -shortest_length(month)..=-1;
    if !from_start.contains(&i64::from(day)) && !from_end.contains(&i64::from(day)) {
        return Err(Number::BadRecurrence);
    }
    let time = data.offset()?;
    if !(0..DAY_MS).contains(&time) {
        return Err(Number::BadRecurrence);
    }
    Ok(Rule { mode, weekday: byte >> 2 & 7, on_or_after: byte & 2 != 0, extra_day: byte & 1 != 0, month, day, time })
}

/// A rule alone, from the front of its bytes: the rule and its length.
pub fn parse_rule(bytes: &[u8]) -> Result<(Rule, usize), Number> {
    let mut data = Data::new(bytes);
    let rule = read_rule(&mut data)?;
    Ok((rule, data.length_read()))
}

impl Rule {
    /// The flag byte 0MMDDDAP.
    pub fn byte(&self) -> u8 {
        let mode = match self.mode {
            Mode::Utc => 0,
            Mode::Wall => 1,
            Mode::Standard => 2,
        };
        mode << 5 | self.weekday << 2 | u8::from(self.on_or_after) << 1 | u8::from(self.extra_day)
    }

    /// The day number on which the rule falls in `year`, in the rule's own time.
    fn date(&self, year: i64) -> i64 {
        let length = month_length(year, self.month);
        let day = i64::from(self.day);
        // "29 February is the 28th in common years", before any move (reading 22).
        let bound = if day > 0 { day.min(length) } else { length + 1 + day };
        let mut date = day_number(year, self.month, bound);
        // "With a weekday, move to the nearest one on or after (A set) or on or before, the bound date itself
        // counting."
        if self.weekday != 0 {
            let step = if self.on_or_after { 1 } else { -1 };
            while weekday(date) != self.weekday {
                date += step;
            }
        }
        // "Then add a day if P is set"
        date + i64::from(self.extra_day)
    }

    /// The instant of the rule in `year`, in ticks: "then the time. Subtract nothing (UTC), the standard offset, or
    /// (wall) the wall offset of the other rule". Offsets are in milliseconds.
    pub fn occurrence(&self, year: i64, standard: i32, other_wall: i32) -> i64 {
        let subtract = match self.mode {
            Mode::Utc => 0,
            Mode::Wall => other_wall,
            Mode::Standard => standard,
        };
        self.date(year) * TICKS_PER_DAY + (i64::from(self.time) - i64::from(subtract)) * TICKS_PER_MS
    }
}

/// "Tail: standard offset, standard name, standard rule, daylight name, daylight rule, daylight savings."
#[derive(Clone, Copy, Debug, PartialEq, Eq)]
pub struct Tail {
    /// The standard offset in milliseconds.
    pub standard: i32,
    /// Pool number of the name in standard time.
    pub standard_name: usize,
    /// When standard time begins.
    pub standard_rule: Rule,
    /// Pool number of the name in daylight time.
    pub daylight_name: usize,
    /// When daylight time begins.
    pub daylight_rule: Rule,
    /// What daylight time adds to the standard offset, in milliseconds.
    pub savings: i32,
}

/// Reads a tail whose names are below `pool_count`.
pub(crate) fn read_tail(data: &mut Data, pool_count: usize) -> Result<Tail, Number> {
    let standard = data.offset()?;
    let standard_name = data.pool_number(pool_count)?;
    let standard_rule = read_rule(data)?;
    let daylight_name = data.pool_number(pool_count)?;
    let daylight_rule = read_rule(data)?;
    let savings = data.offset()?;
    // "Standard plus savings must lie inside 24 hours either way.", strictly, as an offset does (reading 14).
    if (standard + savings).abs() >= DAY_MS {
        return Err(Number::BadRecurrence);
    }
    Ok(Tail { standard, standard_name, standard_rule, daylight_name, daylight_rule, savings })
}

/// A tail alone, from the front of its bytes, with any pool number allowed: the tail and its length.
pub fn parse_tail(bytes: &[u8]) -> Result<(Tail, usize), Number> {
    let mut data = Data::new(bytes);
    let tail = read_tail(&mut data, usize::MAX)?;
    Ok((tail, data.length_read()))
}

/// What a tail says of one instant.
#[derive(Clone, Copy, Debug, PartialEq, Eq)]
pub struct InForce {
    /// Whether daylight is in force, else standard.
    pub daylight: bool,
    /// The start of the interval, in ticks.
    pub start: i64,
    /// The end of the interval.
    pub end: Transition,
}

impl Tail {
    /// The wall offset in daylight time.
    pub fn daylight_wall(&self) -> i32 {
        self.standard + self.savings
    }

    /// The standard rule's instant in `year`; its other rule is the daylight one.
    pub fn standard_occurrence(&self, year: i64) -> i64 {
        self.standard_rule.occurrence(year, self.standard, self.daylight_wall())
    }

    /// The daylight rule's instant in `year`; its other rule is the standard one.
    pub fn daylight_occurrence(&self, year: i64) -> i64 {
        self.daylight_rule.occurrence(year, self.standard, self.standard)
    }

    /// "In the tail, take each rule's earliest occurrence strictly after the instant, over all years. If the daylight
    /// one is later than the standard one, daylight is in force, else standard. The end is the earlier of them, or
    /// end of time if outside the range; the start is the latest occurrence at or before the instant, but not before
    /// the tail's start."
    ///
    /// `instant` is in range and not before `tail_start`. Five years stand for all of them: from its month in a year
    /// a rule moves by six days (weekday), one day (P), under one day (time) and under one day (offset), so year Y's
    /// occurrence lies within nine days of year Y. It also rises strictly from year to year, by at least 365 - 1 - 6
    /// days. So with Y the instant's year, the occurrence of Y + 2 is after the instant and every later year's is
    /// later still, and the occurrence of Y - 2 is before the instant and every earlier year's is earlier still.
    pub fn at(&self, tail_start: i64, instant: i64) -> InForce {
        let year = year_of(instant);
        let years = year - 2..=year + 2;
        let standard: Vec<i64> = years.clone().map(|y| self.standard_occurrence(y)).collect();
        let daylight: Vec<i64> = years.map(|y| self.daylight_occurrence(y)).collect();
        let next_standard = earliest_after(&standard, instant);
        let next_daylight = earliest_after(&daylight, instant);
        let end = next_standard.min(next_daylight);
        let latest = latest_until(&standard, instant).max(latest_until(&daylight, instant));
        InForce {
            daylight: next_daylight > next_standard,
            start: latest.max(tail_start),
            end: if in_range(end) { Transition::Finite(end) } else { Transition::EndOfTime },
        }
    }
}

/// The least of `occurrences` above `instant`; `i64::MAX` (past every year counted) if there were none.
fn earliest_after(occurrences: &[i64], instant: i64) -> i64 {
    occurrences.iter().copied().filter(|&at| at > instant).min().unwrap_or(i64::MAX)
}

/// The greatest of `occurrences` up to `instant`; `i64::MIN` (before every year counted) if there were none.
fn latest_until(occurrences: &[i64], instant: i64) -> i64 {
    occurrences.iter().copied().filter(|&at| at <= instant).max().unwrap_or(i64::MIN)
}
