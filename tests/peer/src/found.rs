//! A zone found once. What its check learns is kept, so that a question reads no more of the zone than it needs.

use crate::codes::Cursor;
use crate::local::{Count, LocalInstants};
use crate::number::{INSTANT_RANGE, NO_INSTANT};
use crate::pool::Pool;
use crate::runs::read_run;
use crate::tail::Tail;
use crate::zone::{read_interval, read_intervals, Interval, Visit};
use crate::{find_zone, Answer, Refusal, END_OF_TIME, FIRST, LAST, START_OF_TIME};

/// A zone of a file that is all there.
pub struct Zone<'a> {
    pub(crate) pool: Pool<'a>,
    pub(crate) kept: Kept<'a>,
}

/// What is kept of a zone's data.
pub(crate) struct Kept<'a> {
    pool_count: u32,
    first: Interval,
    /// The name of the first interval under edition 1: of a fixed zone its ID.
    first_name: u32,
    /// How many intervals are listed, and those behind the first.
    count: u32,
    listed: Cursor<'a>,
    pub(crate) listed_end: i64,
    pub(crate) tail: Option<Tail>,
}

/// What a zone's check finds.
pub(crate) struct Shape {
    first: Interval,
    first_name: u32,
    count: u32,
    /// How many bytes are left behind the first interval.
    left: usize,
    end: i64,
    tail: Option<Tail>,
}

impl Shape {
    pub(crate) fn new() -> Shape {
        let first = Interval { start: START_OF_TIME, name: 0, wall: 0, savings: 0 };
        Shape { first, first_name: 0, count: 0, left: 0, end: END_OF_TIME, tail: None }
    }

    /// What is kept of the zone in `data`, once it is read.
    pub(crate) fn keep(self, data: &[u8], pool_count: u32) -> Kept<'_> {
        let Shape { first, first_name, count, left, end, tail } = self;
        let listed = Cursor::new(&data[data.len() - left..]);
        Kept { pool_count, first, first_name, count, listed, listed_end: end, tail }
    }
}

impl Visit for Shape {
    #[inline]
    fn transition(&mut self, _value: i64, _previous: i64, before: usize, _after: usize) {
        if self.count == 1 {
            self.left = before;
        }
    }

    #[inline]
    fn interval(&mut self, interval: Interval) {
        if self.count == 0 {
            (self.first, self.first_name) = (interval, interval.name);
        }
        self.count += 1;
    }

    #[inline]
    fn run(&mut self, count: u32, _last: Interval) {
        self.count += count;
    }

    #[inline]
    fn fixed(&mut self, id: u32, interval: Interval) {
        self.interval(interval);
        self.first_name = id;
    }

    #[inline]
    fn end(&mut self, end: i64, tail: Option<&Tail>) {
        (self.end, self.tail) = (end, tail.copied());
    }
}

impl<'a> Zone<'a> {
    /// Finds the zone `id`.
    pub fn find(file: &'a [u8], id: &[u8]) -> Result<Zone<'a>, Refusal> {
        let mut shape = Shape::new();
        let found = find_zone(file, id, false, &mut shape)?;
        let kept = shape.keep(found.zone.data, found.pool.count());
        Ok(Zone { pool: found.pool, kept })
    }

    /// The interval that holds `ticks`, as [`ask`](crate::ask) gives it.
    pub fn ask(&self, ticks: i64, first_edition: bool) -> Result<Answer<'a>, Refusal> {
        if !(FIRST..=LAST).contains(&ticks) {
            return Err(Refusal { number: INSTANT_RANGE, place: 0 });
        }
        let (held, end) = self.kept.at(ticks, first_edition);
        Ok(held.answer(end, self.pool.string(held.name)))
    }

    /// The instants that read as the local time `local`, as [`map_local`](crate::map_local) gives them.
    pub fn map_local(&self, local: i64) -> Result<LocalInstants, Refusal> {
        let Kept { pool_count, first, count, mut listed, listed_end, tail, .. } = self.kept;
        let mut found = Count::new(local);
        found.interval(first);
        // The zone was read to its end before.
        let read = read_intervals(&mut listed, 1..count, pool_count, &mut found);
        debug_assert!(read.is_ok());
        found.end(listed_end, tail.as_ref());
        found.instants().ok_or(Refusal { number: NO_INSTANT, place: 0 })
    }
}

impl<'a> Kept<'a> {
    /// The interval that holds `ticks`, and its end.
    #[inline]
    pub(crate) fn at(&self, ticks: i64, first_edition: bool) -> (Interval, i64) {
        let (held, end) = match &self.tail {
            Some(tail) if self.listed_end <= ticks => tail.at(self.listed_end, ticks),
            _ => self.steps(ticks).here(),
        };
        let name = if first_edition && held.start == START_OF_TIME { self.first_name } else { held.name };
        (Interval { name, ..held }, end)
    }

    /// A walk over the intervals that begins at an instant.
    pub(crate) fn steps(&self, ticks: i64) -> Steps<'_> {
        let mut steps =
            Steps { zone: self, cursor: self.listed, number: 0, held: self.first, end: END_OF_TIME, next: self.first };
        steps.read_next();
        steps.skip(ticks);
        steps
    }
}

/// A walk over the intervals of a zone.
pub(crate) struct Steps<'a> {
    zone: &'a Kept<'a>,
    cursor: Cursor<'a>,
    /// The number of the interval held, from 0; the last listed one's in the tail.
    number: u32,
    held: Interval,
    end: i64,
    /// The listed one behind it.
    next: Interval,
}

impl Steps<'_> {
    /// The interval held, and its end.
    #[inline]
    fn here(&self) -> (Interval, i64) {
        (self.held, self.end)
    }

    /// The interval that holds `ticks`, which is not before the one held, and its end.
    #[inline]
    pub fn seek(&mut self, ticks: i64) -> (Interval, i64) {
        while self.end <= ticks {
            if self.number + 1 < self.zone.count {
                self.number += 1;
                self.held = self.next;
                self.read_next();
            } else if let Some(tail) = &self.zone.tail {
                (self.held, self.end) = tail.at(self.zone.listed_end, ticks);
            } else {
                // Not reached: without a tail the last one has no end.
                break;
            }
        }
        self.here()
    }

    /// Goes on to the last listed interval that starts no later than `ticks`, by runs.
    fn skip(&mut self, ticks: i64) {
        while self.end <= ticks && self.number + 1 < self.zone.count {
            let most = self.zone.count - self.number - 2;
            let mut last = Last { stop: ticks, held: self.next };
            let (read, _) = read_run(&mut self.cursor, self.next.start, self.zone.pool_count, most, &mut last);
            (self.number, self.held) = (self.number + 1 + read, last.held);
            self.read_next();
        }
    }

    /// The end of the listed interval held.
    #[inline]
    fn read_next(&mut self) {
        let (number, previous, pool_count) = (self.number + 1, self.held.start, self.zone.pool_count);
        self.end = self.zone.listed_end;
        if number < self.zone.count {
            // The zone was read to its end before.
            if let Ok(next) = read_interval(&mut self.cursor, number, previous, pool_count, &mut ()) {
                (self.next, self.end) = (next, next.start);
            }
        }
    }
}

/// The last interval of a run that starts no later than an instant.
struct Last {
    stop: i64,
    held: Interval,
}

impl Visit for Last {
    #[inline]
    fn interval(&mut self, interval: Interval) {
        self.held = interval;
    }

    #[inline]
    fn stop(&self) -> i64 {
        self.stop
    }
}
