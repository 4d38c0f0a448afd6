//! 02, Ask 14: the stretches of time at which two files differ.

use crate::file::{find_zone, Mark};
use crate::number::{Number, Refusal};
use crate::pool::Pool;
use crate::transition::{in_range, Transition};
use crate::zone::Zone;

/// A stretch: its first instant and its end, which isn't in it.
pub type Stretch = (i64, i64);

/// "given two whole files, a zone and a window of instants (first in, last out; 14 if either is out of range), list in time
/// order, by first instant and end, each stretch of it where offset, savings or name differ and that can't be made longer; a
/// question's refusals on the first file come first, then on the second, then 15 exactly if the lent list is too small."
pub fn difference(
    files: [&[u8]; 2],
    zone: &[u8],
    first: i64,
    last: i64,
    list: &mut [Stretch],
) -> Result<usize, Refusal> {
    let found = differences(files, zone, first, last)?;
    list.get_mut(..found.len()).ok_or(Number::OutputShort.at(0))?.copy_from_slice(&found);
    Ok(found.len())
}

/// All stretches, without a list to fill.
pub fn differences(files: [&[u8]; 2], zone: &[u8], first: i64, last: i64) -> Result<Vec<Stretch>, Refusal> {
    if !in_range(first) || !in_range(last) {
        return Err(Number::InstantRange.at(0));
    }
    let one = find_zone(files[0], zone, Mark::ThisIsAll)?;
    let two = find_zone(files[1], zone, Mark::ThisIsAll)?;
    let mut stretches: Vec<Stretch> = Vec::new();
    let mut from = first;
    // From bound to bound of either zone's intervals: in between, neither changes.
    while from < last {
        let (shown, end) = shown_at(files[0], &one, from);
        let (other_shown, other_end) = shown_at(files[1], &two, from);
        let to = match end.min(other_end) {
            Transition::Finite(bound) => bound.min(last),
            _ => last,
        };
        if shown != other_shown {
            match stretches.last_mut() {
                // It goes on where the kind of difference changes (reading 14.3).
                Some(stretch) if stretch.1 == from => stretch.1 = to,
                _ => stretches.push((from, to)),
            }
        }
        from = to;
    }
    Ok(stretches)
}

/// Offset, savings and name at an instant, and the end of the interval.
fn shown_at<'a>(file: &'a [u8], (pool, zone): &(Pool, Zone), ticks: i64) -> ((i32, i32, &'a [u8]), Transition) {
    let holding = zone.at(ticks);
    let interval = holding.interval;
    ((interval.wall, interval.savings, &file[pool[interval.name].clone()]), holding.end)
}
