//! "Dates are proleptic Gregorian, with years 0 and below allowed inside the arithmetic."
//!
//! Days are numbered from 1970-01-01 by counting year after year, and month after month inside a year.

use crate::transition::TICKS_PER_DAY;
use std::sync::OnceLock;

/// The first year that is counted. The arithmetic of years 1 to 9999 looks two years further at most.
pub const FIRST_YEAR: i64 = -400;
/// The last year that is counted.
pub const LAST_YEAR: i64 = 10_400;

/// Whether February of `year` has 29 days.
pub fn is_leap(year: i64) -> bool {
    year % 4 == 0 && (year % 100 != 0 || year % 400 == 0)
}

/// The days of `month` (1 to 12) in a leap or a common year.
fn month_days(month: u32, leap: bool) -> i64 {
    match month {
        4 | 6 | 9 | 11 => 30,
        2 if leap => 29,
        2 => 28,
        _ => 31,
    }
}

/// The days of `month` in `year`.
pub fn month_length(year: i64, month: u32) -> i64 {
    month_days(month, is_leap(year))
}

/// "the month's longest length"
pub fn longest_length(month: u32) -> i64 {
    month_days(month, true)
}

/// "its shortest length"
pub fn shortest_length(month: u32) -> i64 {
    month_days(month, false)
}

fn year_length(year: i64) -> i64 {
    (1..=12).map(|month| month_length(year, month)).sum()
}

/// The day number of 1 January of each year from `FIRST_YEAR` on, counted once.
fn new_years() -> &'static [i64] {
    static TABLE: OnceLock<Vec<i64>> = OnceLock::new();
    TABLE.get_or_init(|| {
        let before_1970: i64 = (FIRST_YEAR..1970).map(year_length).sum();
        let mut day = -before_1970;
        let mut table = Vec::new();
        for year in FIRST_YEAR..=LAST_YEAR {
            table.push(day);
            day += year_length(year);
        }
        table
    })
}

/// The number of days from 1970-01-01 to a date of the counted years; `day` may lie outside the month.
pub fn day_number(year: i64, month: u32, day: i64) -> i64 {
    let new_year = new_years()[(year - FIRST_YEAR) as usize];
    let earlier_months: i64 = (1..month).map(|earlier| month_length(year, earlier)).sum();
    new_year + earlier_months + day - 1
}

/// Monday 1 to Sunday 7. 1970-01-01 was a Thursday.
pub fn weekday(day_number: i64) -> u8 {
    ((day_number + 3).rem_euclid(7) + 1) as u8
}

/// The UTC year of an instant of the counted years.
pub fn year_of(ticks: i64) -> i64 {
    let day = ticks.div_euclid(TICKS_PER_DAY);
    let started = new_years().partition_point(|&new_year| new_year <= day);
    FIRST_YEAR + started as i64 - 1
}
