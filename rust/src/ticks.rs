//! Instants in ticks of 100 ns since 1970-01-01T00:00Z.
//!
//! An instant that an `i64` of ticks does not hold becomes the nearest that it does, which lies outside years 1 to 9999
//! as well, so that a question refuses both alike.

/// How many ticks of 100 ns a second has.
pub const TICKS_PER_SECOND: i64 = 10_000_000;

/// The first instant that can be asked for: the first tick of year 1.
pub const FIRST_INSTANT: i64 = -621_355_968_000_000_000;

/// The last instant that can be asked for: the last tick of year 9999.
pub const LAST_INSTANT: i64 = 2_534_023_007_999_999_999;

/// The ticks of a count of seconds since 1970-01-01T00:00Z.
///
/// ```
/// assert_eq!(nzd::ticks_of_unix_seconds(1_711_846_800), 17_118_468_000_000_000);
/// // Outside years 1 to 9999.
/// assert_eq!(nzd::ticks_of_unix_seconds(i64::MIN), i64::MIN);
/// ```
pub const fn ticks_of_unix_seconds(seconds: i64) -> i64 {
    seconds.saturating_mul(TICKS_PER_SECOND)
}

/// The ticks of a system time; of a part of a tick, the tick that it is in.
///
/// ```
/// use std::time::{Duration, UNIX_EPOCH};
///
/// assert_eq!(nzd::ticks_of_system_time(UNIX_EPOCH + Duration::from_secs(1_711_846_800)), 17_118_468_000_000_000);
/// assert_eq!(nzd::ticks_of_system_time(UNIX_EPOCH - Duration::from_nanos(101)), -2);
/// ```
#[cfg(feature = "std")]
pub fn ticks_of_system_time(time: std::time::SystemTime) -> i64 {
    match time.duration_since(std::time::UNIX_EPOCH) {
        Ok(after) => i64::try_from(after.as_nanos() / 100).unwrap_or(i64::MAX),
        Err(before) => i64::try_from(before.duration().as_nanos().div_ceil(100)).map_or(i64::MIN, |ticks| -ticks),
    }
}
