//! 02, Ask 3: wall time to instants.

use crate::file::{find_zone, Mark};
use crate::number::{Number, Refusal};
use crate::transition::{in_range, TICKS_PER_MS};
use crate::zone::Zone;
use std::collections::BTreeSet;

/// "how many instants in range read that way, with the earliest and the latest"
#[derive(Clone, Copy, Debug, PartialEq, Eq)]
pub struct LocalInstants {
    /// How many, at least one.
    pub count: usize,
    /// The first of them.
    pub earliest: i64,
    /// The last of them.
    pub latest: i64,
}

/// The instants of `zone` at which a clock on the wall shows `local`, in "ticks since 1970-01-01T00:00 local".
///
/// "Number 17, place 0, exactly if there is none, as on a spring gap; the refusals of a \"this is all\" question, 14
/// aside, come first." No local time is out of range (reading 3.2).
pub fn map_local(bytes: &[u8], zone: &[u8], local: i64) -> Result<LocalInstants, Refusal> {
    let (_, zone) = find_zone(bytes, zone, Mark::ThisIsAll)?;
    let found = instants_of_local(&zone, local);
    match (found.first(), found.last()) {
        (Some(&earliest), Some(&latest)) => Ok(LocalInstants { count: found.len(), earliest, latest }),
        _ => Err(Number::NoInstant.at(0)),
    }
}

/// Every instant in range that, with its own wall offset added, is `local` (reading 3.3). Such an instant is `local` less
/// one of the zone's wall offsets, so each offset is tried.
pub fn instants_of_local(zone: &Zone, local: i64) -> BTreeSet<i64> {
    let mut found = BTreeSet::new();
    for wall in zone.wall_offsets() {
        let tried = i128::from(local) - i128::from(wall) * i128::from(TICKS_PER_MS);
        if let Some(ticks) = i64::try_from(tried).ok().filter(|&ticks| in_range(ticks)) {
            if zone.at(ticks).interval.wall == wall {
                found.insert(ticks);
            }
        }
    }
    found
}
