//! The stretches of time at which two files differ in a zone.

use crate::found::Zone;
use crate::number::INSTANT_RANGE;
use crate::write::TOO_SHORT;
use crate::{Refusal, FIRST, LAST};

/// So many stretches are kept while they are counted; where there are more, the zones are walked a second time.
const FEW: usize = 32;

/// The stretches, first instant and end, of the window from `first` to before `last` at which two whole files differ in
/// offset, savings or name of the zone `id`, put in `list`; how many there are.
pub fn difference(
    files: [&[u8]; 2],
    id: &[u8],
    first: i64,
    last: i64,
    list: &mut [(i64, i64)],
) -> Result<usize, Refusal> {
    if !(FIRST..=LAST).contains(&first) || !(FIRST..=LAST).contains(&last) {
        return Err(Refusal { number: INSTANT_RANGE, place: 0 });
    }
    let one = Zone::find(files[0], id)?;
    let two = Zone::find(files[1], id)?;
    let mut few = [(0, 0); FEW];
    let count = stretches(&one, &two, first, last, &mut few);
    let room = list.get_mut(..count).ok_or(TOO_SHORT)?;
    match few.get(..count) {
        Some(all) => room.copy_from_slice(all),
        None => {
            stretches(&one, &two, first, last, room);
        }
    }
    Ok(count)
}

/// Puts the stretches in the list as far as it has room for them, and counts them all.
fn stretches(one: &Zone, two: &Zone, first: i64, last: i64, list: &mut [(i64, i64)]) -> usize {
    let same_name = |name, other| one.pool.string(name) == two.pool.string(other);
    // Tails that are the same never differ.
    let last = match (&one.kept.tail, &two.kept.tail) {
        (Some(tail), Some(other)) if tail.same(other, same_name) => {
            last.min(one.kept.listed_end.max(two.kept.listed_end))
        }
        _ => last,
    };
    let mut count = 0;
    let mut put = |from, to| {
        if let Some(entry) = list.get_mut(count) {
            *entry = (from, to);
        }
        count += 1;
    };
    let (mut steps, mut other_steps) = (one.kept.steps(first), two.kept.steps(first));
    // Where the open stretch began.
    let mut since = None;
    let mut at = first;
    while at < last {
        let (interval, end) = steps.seek(at);
        let (other, other_end) = other_steps.seek(at);
        let same =
            interval.wall == other.wall && interval.savings == other.savings && same_name(interval.name, other.name);
        match since {
            None if !same => since = Some(at),
            Some(from) if same => {
                put(from, at);
                since = None;
            }
            _ => {}
        }
        at = end.min(other_end).min(last);
    }
    if let Some(from) = since {
        put(from, at);
    }
    count
}
