//! 02, Ask 14: a table of a zone's interval starts, and the lookup in a table by halving.

use crate::file::{find_zone, Mark};
use crate::number::{Number, Refusal};
use crate::transition::Transition;
use crate::zone::{Rest, Zone};

/// "one call fills a lent table with one zone's listed interval starts, start of time (all a fixed zone has) as the lowest
/// number (a question's refusals, 14 aside, come first, then 15 if too short)". The tail's start is none (reading 14.20).
pub fn interval_starts(bytes: &[u8], zone: &[u8], table: &mut [i64]) -> Result<usize, Refusal> {
    let (_, zone) = find_zone(bytes, zone, Mark::ThisIsAll)?;
    let starts = starts_of(&zone);
    table.get_mut(..starts.len()).ok_or(Number::OutputShort.at(0))?.copy_from_slice(&starts);
    Ok(starts.len())
}

/// A zone's listed interval starts.
pub fn starts_of(zone: &Zone) -> Vec<i64> {
    match &zone.rest {
        Rest::Fixed { .. } => vec![i64::MIN],
        Rest::Listed { intervals, .. } => intervals
            .iter()
            .map(|interval| match interval.start {
                Transition::StartOfTime => i64::MIN,
                Transition::Finite(ticks) => ticks,
                Transition::EndOfTime => i64::MAX,
            })
            .collect(),
    }
}

/// What the halving gives.
#[derive(Clone, Copy, Debug, PartialEq, Eq)]
pub struct Found {
    /// "The number, from 0, of the entry left".
    pub position: usize,
    /// "The count of looks given is that of this rule".
    pub looks: u32,
}

/// "another halves a lent table: while more than one entry is left, look at the entry half its length in, rounded down, and
/// keep it and what follows if it isn't after the instant, else what comes before." "an empty table 12".
pub fn find_start(table: &[i64], instant: i64) -> Result<Found, Refusal> {
    if table.is_empty() {
        return Err(Number::NotFound.at(0));
    }
    let mut left = table;
    let mut found = Found { position: 0, looks: 0 };
    while left.len() > 1 {
        let (before, following) = left.split_at(left.len() / 2);
        found.looks += 1;
        if following[0] <= instant {
            found.position += before.len();
            left = following;
        } else {
            left = before;
        }
    }
    Ok(found)
}
