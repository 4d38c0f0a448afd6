//! Every value of a byte, an ID or a part of a rule, in its place in a small file.

use crate::cases::{count, field, hex, zone_file};
use crate::local::map;
use crate::locations::every_second;
use crate::questions::ask;
use crate::tally::{Difference, Tally};
use crate::whole::{check, whole};
use second_reader::codes::{encode_offset, encode_signed_count};

/// Intervals up to 1970 and the tail byte; a tail follows.
const UP_TO_TAIL: &str = "00020100003030 e09bd12a 01";
/// Standard offset 0 and its name.
const STANDARD: &str = "30 00";
/// The daylight name, the last Sunday of March at 01:00 UTC, and savings of an hour.
const DAYLIGHT: &str = "00 1c030132 32";

pub fn all(tally: &mut Tally) -> Result<(), Difference> {
    field_ids(tally)?;
    flags(tally)?;
    standard_offsets(tally)?;
    rules(tally)?;
    every_second(tally)
}

/// Every two IDs in a row, behind field 0.
fn field_ids(tally: &mut Tally) -> Result<(), Difference> {
    let start = [&[0; 4], &field(0, &[1, 1, b'A'])[..]].concat();
    for one in 0..=255 {
        for other in 0..=255 {
            // A zone and a version text that are good, and data that is not looked at.
            let data = |id: u8| match id {
                1 => vec![0, 1, 0x30, 0],
                _ => vec![0],
            };
            let file = [&start[..], &field(one, &data(one)), &field(other, &data(other))].concat();
            check(tally, &file)?;
            ask(tally, &file, b"B", 0)?;
            map(tally, &file, b"A", 0)?;
        }
        // As the first field.
        whole(tally, &[&[0; 4], &field(one, &[0])[..]].concat())?;
    }
    Ok(())
}

/// Every zone flag and every tail byte, with what would follow one that is known.
fn flags(tally: &mut Tally) -> Result<(), Difference> {
    for byte in 0..=255 {
        let tail = hex(&format!("{STANDARD} 1c0a0132 {DAYLIGHT}"));
        for end in ["01", "00", "e09bd12a"] {
            let listed = hex(&format!("00020100003030 {end}"));
            for rest in [&[][..], &tail] {
                whole(tally, &zone_file(&[&listed, &[byte][..], rest].concat()))?;
            }
        }
        for rest in ["30 00", "01 00 00 30 30 01 00", ""] {
            whole(tally, &zone_file(&[&[0, byte], &hex(rest)[..]].concat()))?;
        }
    }
    Ok(())
}

/// Every two offsets of half hours as an interval's wall offset and savings, where it is the first, of five bytes or of twelve;
/// and standard offsets around 24 hours, to the millisecond.
fn standard_offsets(tally: &mut Tally) -> Result<(), Difference> {
    let fronts =
        ["000201 00", "000203 00003030 e09bd12a003030 8001", "000203 00003030 e09bd12a003030 020100000000000000"];
    for front in fronts.map(hex) {
        for wall in 0..=0x60 {
            for savings in 0..=0x60 {
                standard_offset(tally, &[&front[..], &[0, wall, savings]].concat())?;
            }
        }
        for standard in [-86_400_001, -86_400_000, -86_399_999, 86_399_999, 86_400_000, 86_400_001] {
            for wall in [-86_399_999, -86_399_000, -1, 0, 1, 60_000, 86_340_000, 86_399_999] {
                let offset = |ms| encode_offset(ms).unwrap_or_default();
                standard_offset(tally, &[&front[..], &[0], &offset(wall), &offset(wall - standard)].concat())?;
            }
        }
    }
    Ok(())
}

/// A zone up to the savings of its last interval, with an end and cut there.
fn standard_offset(tally: &mut Tally, front: &[u8]) -> Result<(), Difference> {
    check(tally, &zone_file(front))?;
    let file = zone_file(&[front, &[1, 0]].concat());
    check(tally, &file)?;
    ask(tally, &file, b"A", 100_000_000_000_000_000)
}

/// Every rule byte; every month with every day that it may have and some that it may not; the ends of a time of day.
fn rules(tally: &mut Tally) -> Result<(), Difference> {
    let day = |day: i64| encode_signed_count(day).unwrap_or_default();
    let time = |ms: i64| encode_offset(ms).unwrap_or_default();
    for byte in 0..=255 {
        rule(tally, &[vec![byte, 10], day(-1), time(3_600_000)].concat())?;
    }
    for month in 0..=14 {
        for number in -33..=33 {
            for byte in [0x00, 0x1c, 0x3e] {
                rule(tally, &[vec![byte], count(month), day(number), time(0)].concat())?;
            }
        }
    }
    for ms in [-86_399_999, -1_800_000, -1, 0, 1, 1_800_000, 86_399_999] {
        rule(tally, &[vec![0, 1], day(1), time(ms)].concat())?;
    }
    Ok(())
}

/// A zone with this standard rule, at instants of common and leap years.
fn rule(tally: &mut Tally, rule: &[u8]) -> Result<(), Difference> {
    let [front, back] = [format!("{UP_TO_TAIL} {STANDARD}"), DAYLIGHT.to_string()].map(|text| hex(&text));
    let file = zone_file(&[&front, rule, &back].concat());
    check(tally, &file)?;
    // Half years from 1999 on.
    for number in 0..12 {
        let ticks = 9_200_000_000_000_000 + number * 157_000_000_000_000;
        ask(tally, &file, b"A", ticks)?;
        map(tally, &file, b"A", ticks)?;
    }
    Ok(())
}
