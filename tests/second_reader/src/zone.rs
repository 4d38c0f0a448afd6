//! Field 1, a zone: its content, its check and its interval at an instant.

use crate::codes;
use crate::data::Data;
use crate::number::Number;
use crate::recurrence::{read_tail, Rule, Tail};
use crate::transition::Transition;
use std::collections::BTreeSet;

const DAY_MS: i32 = 86_400_000;

/// "4,096 intervals a zone"
pub const MOST_INTERVALS: usize = 4096;

/// One listed interval: "for each, transition, name, wall offset, savings".
#[derive(Clone, Copy, Debug, PartialEq, Eq)]
pub struct Interval {
    /// Its first instant, or start of time.
    pub start: Transition,
    /// Pool number of its name.
    pub name: usize,
    /// Wall offset in milliseconds.
    pub wall: i32,
    /// Savings in milliseconds.
    pub savings: i32,
}

impl Interval {
    /// The standard offset in milliseconds: "wall minus savings".
    pub fn standard(&self) -> i32 {
        self.wall - self.savings
    }
}

/// What stands behind a zone's ID.
#[derive(Clone, Debug, PartialEq, Eq)]
pub enum Rest {
    /// "Flag 1, fixed: offset, then name; savings 0, all of time." 02, Ask 2: "A fixed zone ending right after its
    /// offset is well formed and its name is its ID."
    Fixed {
        /// Wall offset in milliseconds.
        offset: i32,
        /// Pool number of the name; none where the data ends after the offset. "absent and present-but-equal stay two
        /// contents"
        name: Option<usize>,
    },
    /// "Flag 2: interval count, at least 1; [...] then the end transition; tail byte 0 or 1; the tail if 1."
    Listed {
        /// At least one, the first from start of time.
        intervals: Vec<Interval>,
        /// The last interval's end, and the tail's start if there is one.
        end: Transition,
        /// What holds from `end` on.
        tail: Option<Tail>,
    },
}

/// "A zone is ID, flag, rest."
#[derive(Clone, Debug, PartialEq, Eq)]
pub struct Zone {
    /// Pool number of the ID.
    pub id: usize,
    /// What is behind flag 1 or 2.
    pub rest: Rest,
}

/// What holds at an instant; the name is a pool number.
#[derive(Clone, Copy, Debug, PartialEq, Eq)]
pub struct Holding {
    /// The interval's name, wall offset, savings and start.
    pub interval: Interval,
    /// The interval's end: "An interval holds its start and not its end."
    pub end: Transition,
}

/// Reads and judges a zone's data, left to right and to its end.
pub fn read_zone(bytes: &[u8], pool_count: usize) -> Result<Zone, Number> {
    zone_from(&mut Data::new(bytes), pool_count)
}

/// The same of a field's data.
pub(crate) fn zone_from(data: &mut Data, pool_count: usize) -> Result<Zone, Number> {
    let id = data.pool_number(pool_count)?;
    let rest = match data.byte()? {
        1 => {
            let offset = data.offset()?;
            // Absent by the field's size; one byte or more behind the offset is a name (readings 2.1 and 2.2).
            let name = if data.is_at_end() { None } else { Some(data.pool_number(pool_count)?) };
            Rest::Fixed { offset, name }
        }
        2 => read_listed(data, pool_count)?,
        _ => return Err(Number::BadData),
    };
    data.end()?;
    Ok(Zone { id, rest })
}

fn read_listed(data: &mut Data, pool_count: usize) -> Result<Rest, Number> {
    let count = data.count()?;
    if count == 0 {
        return Err(Number::BadInterval);
    }
    if count > MOST_INTERVALS {
        return Err(Number::TooLarge);
    }
    let mut intervals: Vec<Interval> = Vec::new();
    let mut previous = None;
    for _ in 0..count {
        let start = data.transition(previous)?;
        // "The first start is start of time, later ones finite and strictly rising."
        let allowed = match previous {
            None => start == Transition::StartOfTime,
            Some(before) => matches!(start, Transition::Finite(_)) && start > before,
        };
        if !allowed {
            return Err(Number::BadInterval);
        }
        let name = data.pool_number(pool_count)?;
        let wall = data.offset()?;
        let savings = data.offset()?;
        let interval = Interval { start, name, wall, savings };
        // 02, Ask 7: "A zone where that leaves the open range of 24 hours either way is no longer well formed: number 10
        // in an interval, after its savings are read." At once (reading 7.2).
        if interval.standard().abs() >= DAY_MS {
            return Err(Number::BadInterval);
        }
        intervals.push(interval);
        previous = Some(start);
    }
    // The end's code is judged at once, its use "only after the tail byte is read and is 0 or 1" (reading 4). Its
    // previous is the last interval's start (reading 24).
    let end = data.transition(previous)?;
    let has_tail = match data.byte()? {
        0 => false,
        1 => true,
        _ => return Err(Number::BadData),
    };
    // "Without a tail the end is end of time; with one it is finite and after the last start."
    let allowed = match has_tail {
        false => end == Transition::EndOfTime,
        true => matches!(end, Transition::Finite(_)) && Some(end) > previous,
    };
    if !allowed {
        return Err(Number::BadInterval);
    }
    let tail = if has_tail { Some(read_tail(data, pool_count)?) } else { None };
    Ok(Rest::Listed { intervals, end, tail })
}

impl Zone {
    /// What holds at `instant`, which is in range.
    pub fn at(&self, instant: i64) -> Holding {
        let (intervals, end, tail) = match &self.rest {
            Rest::Fixed { offset, name } => {
                let start = Transition::StartOfTime;
                let interval = Interval { start, name: name.unwrap_or(self.id), wall: *offset, savings: 0 };
                return Holding { interval, end: Transition::EndOfTime };
            }
            Rest::Listed { intervals, end, tail } => (intervals, *end, tail),
        };
        let asked = Transition::Finite(instant);
        if let (Some(tail), Transition::Finite(tail_start)) = (tail, end) {
            if asked >= end {
                return tail_at(tail, tail_start, instant);
            }
        }
        // The first start is start of time, so one interval at least has started.
        let started = intervals.iter().filter(|interval| interval.start <= asked).count();
        let next = intervals.get(started).map(|later| later.start);
        Holding { interval: intervals[started - 1], end: next.unwrap_or(end) }
    }

    /// Every wall offset that the zone has at some time, or never: a tail's two are among them.
    pub fn wall_offsets(&self) -> BTreeSet<i32> {
        match &self.rest {
            Rest::Fixed { offset, .. } => BTreeSet::from([*offset]),
            Rest::Listed { intervals, tail, .. } => {
                let in_tail = tail.iter().flat_map(|tail| [tail.standard, tail.daylight_wall()]);
                intervals.iter().map(|interval| interval.wall).chain(in_tail).collect()
            }
        }
    }

    /// The zone's data with every transition "in the writer's form". All other codes have a single form.
    pub fn encode(&self) -> Result<Vec<u8>, Number> {
        let mut out = codes::encode_count(self.id as i64)?;
        match &self.rest {
            Rest::Fixed { offset, name } => {
                out.push(1);
                out.extend(codes::encode_offset(i64::from(*offset))?);
                // "The rewriter keeps the absence".
                if let Some(name) = name {
                    out.extend(codes::encode_count(*name as i64)?);
                }
            }
            Rest::Listed { intervals, end, tail } => {
                out.push(2);
                out.extend(codes::encode_count(intervals.len() as i64)?);
                let mut previous = None;
                for interval in intervals {
                    out.extend(codes::encode_transition(interval.start, previous)?);
                    out.extend(codes::encode_count(interval.name as i64)?);
                    out.extend(codes::encode_offset(i64::from(interval.wall))?);
                    out.extend(codes::encode_offset(i64::from(interval.savings))?);
                    previous = Some(interval.start);
                }
                out.extend(codes::encode_transition(*end, previous)?);
                out.push(u8::from(tail.is_some()));
                if let Some(tail) = tail {
                    out.extend(encode_tail(tail)?);
                }
            }
        }
        Ok(out)
    }
}

/// Standard: the standard offset, savings 0; daylight: standard plus savings, savings as stored (reading 18).
fn tail_at(tail: &Tail, tail_start: i64, instant: i64) -> Holding {
    let in_force = tail.at(tail_start, instant);
    let start = Transition::Finite(in_force.start);
    let interval = if in_force.daylight {
        Interval { start, name: tail.daylight_name, wall: tail.daylight_wall(), savings: tail.savings }
    } else {
        Interval { start, name: tail.standard_name, wall: tail.standard, savings: 0 }
    };
    Holding { interval, end: in_force.end }
}

fn encode_rule(rule: &Rule) -> Result<Vec<u8>, Number> {
    let mut out = vec![rule.byte()];
    out.extend(codes::encode_count(i64::from(rule.month))?);
    out.extend(codes::encode_signed_count(i64::from(rule.day))?);
    out.extend(codes::encode_offset(i64::from(rule.time))?);
    Ok(out)
}

fn encode_tail(tail: &Tail) -> Result<Vec<u8>, Number> {
    let mut out = codes::encode_offset(i64::from(tail.standard))?;
    out.extend(codes::encode_count(tail.standard_name as i64)?);
    out.extend(encode_rule(&tail.standard_rule)?);
    out.extend(codes::encode_count(tail.daylight_name as i64)?);
    out.extend(encode_rule(&tail.daylight_rule)?);
    out.extend(codes::encode_offset(i64::from(tail.savings))?);
    Ok(out)
}
