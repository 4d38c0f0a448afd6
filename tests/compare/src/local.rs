//! Local times: the instants that read as one, by the C functions of a file and of a found zone, and by the wrapper.

use crate::lent;
use crate::questions::Question;
use crate::tally::{Difference, Tally};
use crate::whole::{error_pair, pair};
use nzd::{ffi, LocalInstants};
use second_reader::generate::{local_times, Prng};
use second_reader::zone::Zone;

/// Compares a local time of a file that is taken as all there is.
pub fn map(tally: &mut Tally, file: &[u8], id: &[u8], local: i64) -> Result<(), Difference> {
    let asked = format!("{:?} at the local time {local}", id.escape_ascii().to_string());
    let theirs = second_reader::map_local(file, id, local)
        .map(|found| [found.count as i64, found.earliest, found.latest])
        .map_err(pair);
    tally.same(&asked, file, lent::numbers(file, |out| ffi::map_local(file, id, local, out))?, theirs)?;
    let wrapped = nzd::map_local(file, id, local).map_err(error_pair).and_then(numbers_of);
    tally.same(&format!("{asked}, by the wrapper"), file, wrapped, theirs)?;
    let mut numbers = [0; 5];
    if ffi::find_zone(file, id, &mut numbers) == 0 {
        let found = format!("the found {asked}");
        let ours = lent::numbers(file, |out| ffi::map_zone_local(file, &numbers, local, out))?;
        tally.same(&found, file, ours, theirs)?;
        let wrapped = nzd::Zone::find(file, id).map_err(error_pair).and_then(|zone| numbers_of(zone.map_local(local)));
        tally.same(&format!("{found}, by the wrapper"), file, wrapped, theirs)?;
    }
    Ok(())
}

/// The numbers of the C function again.
pub fn numbers_of(found: LocalInstants) -> Result<[i64; 3], (u8, u64)> {
    let count = found.count();
    match (count, found.earliest().zip(found.latest())) {
        (0, None) => Err((17, 0)),
        (1.., Some((earliest, latest))) => Ok([count as i64, earliest, latest]),
        _ => panic!("{found:?}"),
    }
}

/// At most so many local times of a zone: about every bound, with its own offsets and others, and at the ends of all numbers.
pub fn times(zone: &Zone, id: &[u8], most: usize, prng: &mut Prng) -> Vec<Question> {
    let mut all = local_times(zone, prng);
    // The first ones are those that no zone reads.
    while all.len() > most.max(5) {
        let place = 5 + prng.below(all.len() - 5);
        all.swap_remove(place);
    }
    all.into_iter().map(|local| (id.to_vec(), local)).collect()
}
