//! Wall time to instants, counted while a zone is read.

use crate::tail::Tail;
use crate::zone::{Interval, Visit};
use crate::{FIRST, LAST, START_OF_TIME};

const TICKS_PER_MS: i64 = 10_000;
const DAY: i64 = 864_000_000_000;

/// The instants that read as a local time.
#[derive(Clone, Copy, Debug, PartialEq, Eq)]
pub struct LocalInstants {
    /// How many, at least one.
    pub count: u32,
    /// The first of them.
    pub earliest: i64,
    /// The last of them.
    pub latest: i64,
}

/// Counts them, interval by interval. An interval's end is known when the next one is shown.
pub struct Count {
    local: i64,
    /// The start of the interval shown last, and the one instant that would read as the local time with its offset.
    start: i64,
    tried: i64,
    found: LocalInstants,
}

impl Count {
    pub fn new(local: i64) -> Count {
        // The first interval to be shown ends this one, which holds nothing.
        let found = LocalInstants { count: 0, earliest: 0, latest: 0 };
        Count { local, start: START_OF_TIME, tried: START_OF_TIME, found }
    }

    /// What was found, once the zone is read.
    pub fn instants(&self) -> Option<LocalInstants> {
        (self.found.count > 0).then_some(self.found)
    }

    /// The instant that reads as the local time with an offset. Where it would leave 64 bits it is out of range, as the nearest is
    /// that does not.
    #[inline]
    fn with(&self, wall: i32) -> i64 {
        self.local.saturating_sub(i64::from(wall) * TICKS_PER_MS)
    }

    /// The interval shown last ends here: `tried` counts if it lies in it.
    #[inline]
    fn ended(&mut self, end: i64) {
        if self.start <= self.tried && self.tried < end {
            self.add(self.tried);
        }
    }

    /// Adds an instant behind the others, if it is in range.
    fn add(&mut self, ticks: i64) {
        if (FIRST..=LAST).contains(&ticks) {
            if self.found.count == 0 {
                self.found.earliest = ticks;
            }
            self.found.latest = ticks;
            self.found.count += 1;
        }
    }
}

impl Visit for Count {
    /// No offset reaches a day, so an interval that ends a day before the local time, or starts a day after it, holds no such instant.
    #[inline]
    fn stop(&self) -> i64 {
        let before = self.local.saturating_sub(DAY);
        if self.start > self.local.saturating_add(DAY) {
            LAST
        } else {
            before
        }
    }

    #[inline]
    fn interval(&mut self, interval: Interval) {
        self.ended(interval.start);
        self.start = interval.start;
        self.tried = self.with(interval.wall);
    }

    fn end(&mut self, end: i64, tail: Option<&Tail>) {
        self.ended(end);
        let Some(tail) = tail else { return };
        // The larger offset gives the earlier instant.
        let [one, other] = tail.wall_offsets();
        let walls = [one.max(other), one.min(other)];
        for &wall in if one == other { &walls[..1] } else { &walls } {
            let ticks = self.with(wall);
            if (end..=LAST).contains(&ticks) && tail.at(end, ticks).0.wall == wall {
                self.add(ticks);
            }
        }
    }
}
