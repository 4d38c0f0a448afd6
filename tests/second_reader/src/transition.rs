//! Instants and the two marks: what a transition code names, and what bounds an interval.

use std::fmt;

/// First finite instant, 0001-01-01T00:00Z: "Finite ones run from -621355968000000000 (year 1)".
pub const FIRST: i64 = -621_355_968_000_000_000;
/// Last finite instant: "to 2534023007999999999 (end of 9999)".
pub const LAST: i64 = 2_534_023_007_999_999_999;

/// Ticks of 100 ns in a millisecond.
pub const TICKS_PER_MS: i64 = 10_000;
/// Ticks in a minute.
pub const TICKS_PER_MINUTE: i64 = 60_000 * TICKS_PER_MS;
/// Ticks in an hour.
pub const TICKS_PER_HOUR: i64 = 60 * TICKS_PER_MINUTE;
/// Ticks in a day.
pub const TICKS_PER_DAY: i64 = 24 * TICKS_PER_HOUR;

/// A finite instant or one of "the marks \"start of time\" and \"end of time\"", ordered in time.
#[derive(Clone, Copy, Debug, PartialEq, Eq, PartialOrd, Ord)]
pub enum Transition {
    /// Before every instant.
    StartOfTime,
    /// "signed 64-bit counts of 100 ns ticks since 1970-01-01T00:00Z"
    Finite(i64),
    /// After every instant.
    EndOfTime,
}

/// Whether `ticks` lies in years 1 to 9999.
pub fn in_range(ticks: i64) -> bool {
    (FIRST..=LAST).contains(&ticks)
}

impl fmt::Display for Transition {
    /// The words `start` and `end` for the marks, else the ticks.
    fn fmt(&self, f: &mut fmt::Formatter<'_>) -> fmt::Result {
        match self {
            Transition::StartOfTime => write!(f, "start"),
            Transition::Finite(ticks) => write!(f, "{ticks}"),
            Transition::EndOfTime => write!(f, "end"),
        }
    }
}
