//! Tables of interval starts, and the search in one by halving: by the C functions and by the wrapper.

use crate::cases::{hex, zone_file};
use crate::lent;
use crate::tally::{Difference, Tally};
use crate::whole::{error_pair, pair};
use nzd::{ffi, Search};
use second_reader::generate::Prng;
use second_reader::zone::MOST_INTERVALS;

/// Compares the table of a zone, with tables of every length around the needed one, and gives it.
pub fn table(tally: &mut Tally, file: &[u8], id: &[u8]) -> Result<Vec<i64>, Difference> {
    let mut starts = vec![0; MOST_INTERVALS];
    let theirs = second_reader::interval_starts(file, id, &mut starts).map_err(pair);
    let count = theirs.unwrap_or(0);
    starts.truncate(count);
    for room in (count.saturating_sub(2)..count + 3).chain([0]) {
        let expected = match theirs {
            Ok(count) if count > room => Err((15, 0)),
            known => known.map(|_| starts.clone()),
        };
        let what = format!("{:?} with room for {room}", id.escape_ascii().to_string());
        let ours = lent::listed(room, 1, file, |table, count| ffi::interval_starts(file, id, table, count))?;
        tally.same_of("interval_starts", &what, file, ours, expected.clone())?;
        let mut table = vec![0; room];
        let wrapped = nzd::interval_starts(file, id, &mut table).map_err(error_pair);
        let wrapped = wrapped.map(|count| table[..count].to_vec());
        tally.same_of("interval_starts", &what, file, wrapped, expected)?;
    }
    Ok(starts)
}

/// Compares the search for an instant in a table.
pub fn find(tally: &mut Tally, table: &[i64], instant: i64) -> Result<(), Difference> {
    let found = second_reader::find_start(table, instant).map_err(pair);
    let theirs = found.map(|found| [found.position as i64, i64::from(found.looks)]);
    let what = || format!("{instant} in a table of {}: {:?}", table.len(), &table[..table.len().min(40)]);
    let ours = lent::numbers(&[], |out| ffi::find_start(table, instant, out))?;
    tally.same_of("find_start", &what(), &[], ours, theirs)?;
    let wrapped = nzd::find_start(table, instant).map_err(error_pair);
    let wrapped = wrapped.map(|Search { entry, looks }| [entry as i64, looks as i64]);
    tally.same_of("find_start", &what(), &[], wrapped, theirs)
}

/// The worked cases of the readings, every small table, and long ones: ascending, with equal entries, and not ascending.
pub fn worked(tally: &mut Tally, prng: &mut Prng, rounds: u64) -> Result<(), Difference> {
    for zone in [
        "00013000",
        "00020100003030 020000000000000000 01 32 00 1c0a0132 00 1c030132 32",
        "00020200003030 02000000000000000a 003030 0100",
        "0002",
    ] {
        let file = zone_file(&hex(zone));
        for length in 0..=file.len() {
            for id in ["A", "C", ""] {
                table(tally, &file[..length], id.as_bytes())?;
            }
        }
    }
    // All tables of up to five entries from 0 to 3.
    for count in 0..=5 {
        for number in 0..4u32.pow(count) {
            let table: Vec<i64> = (0..count).map(|place| i64::from(number / 4u32.pow(place) % 4)).collect();
            for instant in -1..=4 {
                find(tally, &table, instant)?;
            }
        }
    }
    for table in [&[i64::MIN][..], &[i64::MAX], &[i64::MIN, i64::MAX], &[i64::MAX, i64::MIN], &[i64::MIN, i64::MIN, 0]]
    {
        for instant in [i64::MIN, i64::MIN + 1, -1, 0, i64::MAX - 1, i64::MAX] {
            find(tally, table, instant)?;
        }
    }
    for round in 0..rounds {
        let most = if round % 10 == 0 { 5000 } else { 70 };
        let mut table: Vec<i64> = (0..prng.below(most)).map(|_| prng.range(-1000, 1000)).collect();
        if !prng.one_in(3) {
            table.sort_unstable();
        }
        for instant in [i64::MIN, -1001, prng.range(-1000, 1000), prng.next_u64() as i64, i64::MAX] {
            find(tally, &table, instant)?;
        }
    }
    Ok(())
}
