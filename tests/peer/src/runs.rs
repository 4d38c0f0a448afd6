//! Runs: listed intervals of one length in a row, read in a loop that keeps only its place and the last start.

use crate::codes::{Cursor, TICKS_PER_HOUR};
use crate::zone::{Interval, Visit};
use crate::LAST;

/// The details of an interval, its last three bytes where each has one.
pub type Details = [u8; 3];

/// Shows a run of intervals of five bytes, whose starts are two bytes of hours, or else one of twelve, whose starts are in ticks: at most
/// `most` of them, behind an instant. Gives how many there were, and the start of the last.
#[inline]
pub fn read_run(cursor: &mut Cursor, previous: i64, pool_count: u32, most: u32, visit: &mut impl Visit) -> (u32, i64) {
    let names = pool_count.min(0x80) as u8;
    // Added to a byte below 0x80, sets its highest bit if the byte is above what is allowed.
    let above = u32::from_le_bytes([0, 0, 0x80 - names, 0x20]);
    let hours = |interval: &[u8; 5], last| {
        // Four bytes at once, all below 0x80 with the lowest one's highest bit turned.
        let word = u32::from_le_bytes(*interval.first_chunk()?) ^ 0x80;
        // Taken from these, a byte leaves the highest bit set if it is 0, where that isn't allowed.
        let zeros = 0x807f_807fu32.wrapping_sub(word);
        if (word | word.wrapping_add(above) | zeros) & 0x8080_8080 != 0 || !are_near((word >> 24) as u8, interval[4]) {
            return None;
        }
        Some(last + i64::from(word & 0x7f | word >> 1 & 0x3f80) * TICKS_PER_HOUR)
    };
    let ticks = |&[form, a, b, c, d, e, f, g, h, name, wall, savings]: &[u8; 12], last| {
        let start = i64::from_be_bytes([a, b, c, d, e, f, g, h]);
        (form == 2 && start > last && are_short([name, wall, savings], names)).then_some(start)
    };
    if cursor.starts_with(2) {
        run_of(cursor, previous, most, visit, ticks)
    } else {
        run_of(cursor, previous, most, visit, hours)
    }
}

/// A run of intervals of `N` bytes, the last three of them details; `start_of` gives the start of one, behind the last, if it has the run's form.
#[inline]
fn run_of<const N: usize>(
    cursor: &mut Cursor,
    previous: i64,
    most: u32,
    visit: &mut impl Visit,
    start_of: impl Fn(&[u8; N], i64) -> Option<i64>,
) -> (u32, i64) {
    let stop = visit.stop().min(LAST);
    let all = cursor.chunks::<N>(most as usize);
    let rest = cursor.left() - N * all.len();
    let mut left = all.iter();
    let mut last = previous;
    while let Some(interval) = left.as_slice().first() {
        let Some(start) = start_of(interval, last).filter(|&start| start <= stop) else { break };
        let before = rest + N * left.len();
        visit.transition(start, last, before, before - (N - 3));
        visit.mention(interval[N - 3].into(), before - (N - 3), before - (N - 2));
        last = start;
        left.next();
    }
    let count = all.len() - left.len();
    if count > 0 {
        cursor.skip(N * count);
        visit.run(count as u32, interval_of(last, details_of(&all[count - 1])));
    }
    (count as u32, last)
}

#[inline]
fn details_of<const N: usize>(interval: &[u8; N]) -> Details {
    [interval[N - 3], interval[N - 2], interval[N - 1]]
}

/// Whether name and offsets have a byte each that is not refused; the standard offset is inside 24 hours.
#[inline]
pub fn are_short([name, wall, savings]: Details, names: u8) -> bool {
    name < names && matches!(wall, 0x01..=0x5f) && are_near(wall, savings)
}

/// Whether savings have a byte, and the standard offset is inside 24 hours.
#[inline]
fn are_near(wall: u8, savings: u8) -> bool {
    matches!(savings, 0x01..=0x5f) && wall.wrapping_sub(savings).wrapping_add(47) < 95
}

#[inline]
pub fn interval_of(start: i64, [name, wall, savings]: Details) -> Interval {
    Interval { start, name: name.into(), wall: half_hours(wall), savings: half_hours(savings) }
}

/// The offset, in milliseconds, of a byte of half hours.
#[inline]
pub fn half_hours(byte: u8) -> i32 {
    (i32::from(byte) - 48) * 1_800_000
}
