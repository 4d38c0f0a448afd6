//! Field 1, a zone: one pass that checks it and shows what it holds to a visitor.

use crate::codes::{Cursor, DAY_MS};
use crate::number::{BAD_DATA, BAD_INTERVAL, TOO_LARGE};
use crate::pool::Pool;
use crate::runs::read_run;
use crate::tail::Tail;
use crate::{Answer, END_OF_TIME, LAST, START_OF_TIME};
use std::ops::Range;

const MOST_INTERVALS: u32 = 4096;

/// One interval; its end is the next one's start.
#[derive(Clone, Copy)]
pub struct Interval {
    pub start: i64,
    pub name: u32,
    pub wall: i32,
    pub savings: i32,
}

impl Interval {
    /// The answer of an instant that it holds.
    #[inline]
    pub fn answer<'a>(&self, end: i64, name: &'a [u8]) -> Answer<'a> {
        let Interval { start, wall, savings, .. } = *self;
        let [wall_offset_ms, savings_ms, standard_offset_ms] = [wall, savings, wall - savings].map(i64::from);
        Answer { wall_offset_ms, savings_ms, standard_offset_ms, name, start, end }
    }
}

/// Is shown the parts of a field as they are read. A later part may still be refused.
pub trait Visit {
    /// A pool number, and how many bytes were left before and after its code.
    #[inline]
    fn mention(&mut self, _number: u32, _before: usize, _after: usize) {}

    /// A transition with the one before it, and how many bytes were left before and after its code.
    #[inline]
    fn transition(&mut self, _value: i64, _previous: i64, _before: usize, _after: usize) {}

    /// A listed interval.
    #[inline]
    fn interval(&mut self, _interval: Interval) {}

    /// Where a run ends: of intervals in a row that start no later, all but the last need not be shown.
    #[inline]
    fn stop(&self) -> i64 {
        LAST
    }

    /// A run of so many listed intervals, of which this is the last. Their transitions and mentions were shown before.
    #[inline]
    fn run(&mut self, _count: u32, last: Interval) {
        self.interval(last);
    }

    /// The only interval of a fixed zone with this ID.
    #[inline]
    fn fixed(&mut self, _id: u32, interval: Interval) {
        self.interval(interval);
    }

    /// The end of the last interval, and the tail that holds from there on.
    #[inline]
    fn end(&mut self, _end: i64, _tail: Option<&Tail>) {}
}

/// Checks only.
impl Visit for () {}

/// Reads what stands behind a zone's ID, to the end of its data. A fixed zone that ends right after its offset has its ID
/// for a name.
pub fn read_rest(mut cursor: Cursor, id: u32, pool_count: u32, visit: &mut impl Visit) -> Result<(), u8> {
    match cursor.byte()? {
        1 => {
            let wall = cursor.offset()?;
            let name = if cursor.left() == 0 { id } else { read_mention(&mut cursor, pool_count, visit)? };
            visit.fixed(id, Interval { start: START_OF_TIME, name, wall, savings: 0 });
            visit.end(END_OF_TIME, None);
        }
        2 => read_listed(&mut cursor, pool_count, visit)?,
        _ => return Err(BAD_DATA),
    }
    cursor.end()
}

fn read_listed(cursor: &mut Cursor, pool_count: u32, visit: &mut impl Visit) -> Result<(), u8> {
    let count = cursor.count()?;
    if count == 0 {
        return Err(BAD_INTERVAL);
    }
    if count > MOST_INTERVALS {
        return Err(TOO_LARGE);
    }
    let previous = read_intervals(cursor, 0..count, pool_count, visit)?;
    let end = read_transition(cursor, previous, visit)?;
    match cursor.byte()? {
        0 if end == END_OF_TIME => visit.end(end, None),
        1 if end > previous && end != END_OF_TIME => {
            let tail = Tail::read(cursor, pool_count, visit)?;
            visit.end(end, Some(&tail));
        }
        0 | 1 => return Err(BAD_INTERVAL),
        _ => return Err(BAD_DATA),
    }
    Ok(())
}

/// The listed intervals of these numbers, the first of them the first of all or the second; gives the last one's start.
#[inline]
pub fn read_intervals(
    cursor: &mut Cursor,
    numbers: Range<u32>,
    pool_count: u32,
    visit: &mut impl Visit,
) -> Result<i64, u8> {
    let Range { start: mut number, end: count } = numbers;
    let mut previous = START_OF_TIME;
    while number < count {
        // Behind the second one stands an instant, and most are short.
        if number > 1 {
            let (read, last) = read_run(cursor, previous, pool_count, count - number, visit);
            (number, previous) = (number + read, last);
            if number == count {
                break;
            }
        }
        let interval = read_interval(cursor, number, previous, pool_count, visit)?;
        visit.interval(interval);
        (number, previous) = (number + 1, interval.start);
    }
    Ok(previous)
}

/// The listed interval with a number, from 0, behind one that starts at `previous`.
#[inline]
pub fn read_interval(
    cursor: &mut Cursor,
    number: u32,
    previous: i64,
    pool_count: u32,
    visit: &mut impl Visit,
) -> Result<Interval, u8> {
    if number > 1 {
        let before = cursor.left();
        if let Some(interval) = cursor.short_interval(previous, pool_count) {
            let after = cursor.left();
            visit.transition(interval.start, previous, before, after + 3);
            visit.mention(interval.name, after + 3, after + 2);
            return Ok(interval);
        }
    }
    read_long_interval(cursor, number, previous, pool_count, visit)
}

/// The same, whatever its codes.
#[inline]
fn read_long_interval(
    cursor: &mut Cursor,
    number: u32,
    previous: i64,
    pool_count: u32,
    visit: &mut impl Visit,
) -> Result<Interval, u8> {
    let start = read_transition(cursor, previous, visit)?;
    let allowed = if number == 0 { start == START_OF_TIME } else { start > previous && start != END_OF_TIME };
    if !allowed {
        return Err(BAD_INTERVAL);
    }
    let name = read_mention(cursor, pool_count, visit)?;
    let wall = cursor.offset()?;
    let savings = cursor.offset()?;
    if (wall - savings).abs() >= DAY_MS {
        return Err(BAD_INTERVAL);
    }
    Ok(Interval { start, name, wall, savings })
}

#[inline]
pub fn read_mention(cursor: &mut Cursor, pool_count: u32, visit: &mut impl Visit) -> Result<u32, u8> {
    let before = cursor.left();
    let number = cursor.pool_number(pool_count)?;
    visit.mention(number, before, cursor.left());
    Ok(number)
}

#[inline]
fn read_transition(cursor: &mut Cursor, previous: i64, visit: &mut impl Visit) -> Result<i64, u8> {
    let before = cursor.left();
    let value = cursor.transition(previous)?;
    visit.transition(value, previous, before, cursor.left());
    Ok(value)
}

/// Finds the interval that holds an instant.
pub struct Find {
    ticks: i64,
    /// Whether a fixed zone's ID is given for its name.
    first_edition: bool,
    held: Interval,
    end: i64,
}

impl Find {
    pub fn new(ticks: i64, first_edition: bool) -> Find {
        let held = Interval { start: START_OF_TIME, name: 0, wall: 0, savings: 0 };
        Find { ticks, first_edition, held, end: END_OF_TIME }
    }

    /// The interval found, once the zone is read, and its end.
    pub fn held(&self) -> (Interval, i64) {
        (self.held, self.end)
    }

    /// The answer, once the zone is read.
    pub fn answer<'a>(&self, pool: &Pool<'a>) -> Answer<'a> {
        self.held.answer(self.end, pool.string(self.held.name))
    }
}

impl Visit for Find {
    #[inline]
    fn stop(&self) -> i64 {
        if self.end == END_OF_TIME {
            self.ticks
        } else {
            LAST
        }
    }

    #[inline]
    fn interval(&mut self, interval: Interval) {
        if interval.start <= self.ticks {
            self.held = interval;
        } else if self.end == END_OF_TIME {
            self.end = interval.start;
        }
    }

    #[inline]
    fn fixed(&mut self, id: u32, interval: Interval) {
        let name = if self.first_edition { id } else { interval.name };
        self.interval(Interval { name, ..interval });
    }

    #[inline]
    fn end(&mut self, end: i64, tail: Option<&Tail>) {
        match tail {
            Some(tail) if end <= self.ticks => (self.held, self.end) = tail.at(end, self.ticks),
            _ if self.end == END_OF_TIME => self.end = end,
            _ => {}
        }
    }
}
