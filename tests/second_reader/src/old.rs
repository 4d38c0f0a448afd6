//! 02, Ask 13: "Read and write the older edition's count, offset, string and dictionary as document 002 gives them."
//!
//! "Preferred forms only, offsets inside 24 hours, with 7 for any other, and both directions exact." A code cut by its bytes'
//! end is 9 as long as its first byte has a form (reading 13.2).

use crate::aliases::follow;
use crate::codes::{put, Read, LONGEST_TEXT};
use crate::file::{answer, read_file, Answer, Edition};
use crate::number::{Number, Refusal};
use crate::transition::in_range;
use std::collections::BTreeSet;
use std::ops::Range;

const LARGEST_COUNT: i64 = 2_147_483_647;
const DAY_MS: i64 = 86_400_000;
const HALF_HOUR_MS: i64 = 1_800_000;
const SECOND_MS: i64 = 1_000;

/// The number that the first bytes make, high first, unsigned; 9 if they aren't all there.
fn high_first(bytes: &[u8], length: usize) -> Result<i64, Number> {
    let code = bytes.get(..length).ok_or(Number::BadData)?;
    Ok(code.iter().fold(0, |number, &byte| number * 256 + i64::from(byte)))
}

/// The last `length` bytes of a number that isn't negative, high first.
fn to_high_first(number: i64, length: usize) -> Vec<u8> {
    number.to_be_bytes()[8 - length..].to_vec()
}

/// A count: one byte for up to `0x8e`, then two, three and four bytes, "larger values are serialised as five bytes, as the
/// leader `0xff` followed by the value as a `fixed32`", which is 7 for a smaller value or a set top bit (reading 13.1).
pub fn read_count(bytes: &[u8]) -> Read<u32> {
    let first = *bytes.first().ok_or(Number::BadData)?;
    let (value, length) = match first {
        0x00..=0x7f => (i64::from(first) + 0x0f, 1),
        0x80..=0xbf => (high_first(bytes, 2)? - 0x8000 + 0x8f, 2),
        0xc0..=0xdf => (high_first(bytes, 3)? - 0xc0_0000 + 0x408f, 3),
        0xe0..=0xef => (high_first(bytes, 4)? - 0xe000_0000 + 0x20_408f, 4),
        0xf0..=0xfe => (i64::from(first) - 0xf0, 1),
        0xff => (high_first(bytes, 5)? - 0xff_0000_0000, 5),
    };
    if length == 5 && !(0x1020_408f..=LARGEST_COUNT).contains(&value) {
        return Err(Number::BadCode);
    }
    Ok((value as u32, length))
}

/// The code of a count.
pub fn encode_count(value: i64) -> Result<Vec<u8>, Number> {
    Ok(match value {
        0..=0x0e => vec![(0xf0 + value) as u8],
        0x0f..=0x8e => vec![(value - 0x0f) as u8],
        0x8f..=0x408e => to_high_first(0x8000 + value - 0x8f, 2),
        0x408f..=0x20_408e => to_high_first(0xc0_0000 + value - 0x408f, 3),
        0x20_408f..=0x1020_408e => to_high_first(0xe000_0000 + value - 0x20_408f, 4),
        0x1020_408f..=LARGEST_COUNT => to_high_first(0xff_0000_0000 + value, 5),
        _ => return Err(Number::BadCode),
    })
}

/// An offset in milliseconds: half hours in a byte, else whole seconds in three bytes, else `0xfd` and milliseconds.
pub fn read_offset(bytes: &[u8]) -> Read<i32> {
    let first = *bytes.first().ok_or(Number::BadData)?;
    // Each form: its length, its value, and the unit whose multiples belong to an earlier form.
    let (length, ms, earlier) = match first {
        0x10..=0x6e => (1, (i64::from(first) - 0x3f) * HALF_HOUR_MS, None),
        0x82..=0x85 => (3, (high_first(bytes, 3)? - 0x83_ffff) * SECOND_MS, Some(HALF_HOUR_MS)),
        0xfd => (5, i64::from((high_first(bytes, 5)? & 0xffff_ffff) as u32 as i32), Some(SECOND_MS)),
        _ => return Err(Number::BadCode),
    };
    let fits_earlier = earlier.is_some_and(|larger| ms % larger == 0);
    if fits_earlier || ms.abs() >= DAY_MS {
        return Err(Number::BadCode);
    }
    Ok((ms as i32, length))
}

/// The code of an offset in milliseconds.
pub fn encode_offset(ms: i64) -> Result<Vec<u8>, Number> {
    if !(-DAY_MS + 1..DAY_MS).contains(&ms) {
        return Err(Number::BadCode);
    }
    Ok(if ms % HALF_HOUR_MS == 0 {
        vec![(0x3f + ms / HALF_HOUR_MS) as u8]
    } else if ms % SECOND_MS == 0 {
        to_high_first(0x83_ffff + ms / SECOND_MS, 3)
    } else {
        [vec![0xfd], (ms as i32).to_be_bytes().to_vec()].concat()
    })
}

/// "a `count` of the number of UTF-8 bytes in the string followed by those bytes": 4, then 9 if cut, then 8 (reading 13.4).
/// The value is the part that holds them.
pub fn read_string(bytes: &[u8]) -> Read<Range<usize>> {
    let (count, start) = read_count(bytes)?;
    let count = count as usize;
    if count > LONGEST_TEXT {
        return Err(Number::TooLarge);
    }
    let end = start + count;
    let text = bytes.get(start..end).ok_or(Number::BadData)?;
    std::str::from_utf8(text).map_err(|_| Number::BadText)?;
    Ok((start..end, end))
}

/// The code of a string.
pub fn encode_string(text: &[u8]) -> Result<Vec<u8>, Number> {
    if text.len() > LONGEST_TEXT {
        return Err(Number::TooLarge);
    }
    std::str::from_utf8(text).map_err(|_| Number::BadText)?;
    Ok([encode_count(text.len() as i64)?, text.to_vec()].concat())
}

/// A key and its value, as parts of the lent bytes.
pub type Entry = (Range<usize>, Range<usize>);

/// "a `count` number of entries in the dictionary, followed by that number of pairs of `string` key and `string` value". 02:
/// "The second of two equal keys in a dictionary read or written alone gets 19": when that key is read (reading 13.5). What
/// follows the last entry is ignored.
pub fn read_dictionary(bytes: &[u8]) -> Read<Vec<Entry>> {
    let (count, mut at) = read_count(bytes)?;
    let mut string = || -> Result<Range<usize>, Number> {
        let (part, length) = read_string(&bytes[at..])?;
        let text = at + part.start..at + part.end;
        at += length;
        Ok(text)
    };
    let mut keys = BTreeSet::new();
    let mut entries = Vec::new();
    for _ in 0..count {
        let key = string()?;
        if !keys.insert(&bytes[key.clone()]) {
            return Err(Number::SecondKey);
        }
        entries.push((key, string()?));
    }
    Ok((entries, at))
}

/// The code of a dictionary: 7 for the count, then left to right each key's 4, 8 and 19 and each value's 4 and 8 (reading
/// 13.8).
pub fn encode_dictionary(entries: &[(&[u8], &[u8])]) -> Result<Vec<u8>, Number> {
    let mut out = encode_count(entries.len() as i64)?;
    let mut keys = BTreeSet::new();
    for (key, value) in entries {
        out.extend(encode_string(key)?);
        if !keys.insert(key) {
            return Err(Number::SecondKey);
        }
        out.extend(encode_string(value)?);
    }
    Ok(out)
}

/// Writes a count.
pub fn write_count(value: i64, out: &mut [u8]) -> Result<usize, Number> {
    put(&encode_count(value)?, out)
}

/// Writes an offset in milliseconds.
pub fn write_offset(ms: i64, out: &mut [u8]) -> Result<usize, Number> {
    put(&encode_offset(ms)?, out)
}

/// Writes a string.
pub fn write_string(text: &[u8], out: &mut [u8]) -> Result<usize, Number> {
    put(&encode_string(text)?, out)
}

/// Writes a dictionary: 19 "before 15".
pub fn write_dictionary(entries: &[(&[u8], &[u8])], out: &mut [u8]) -> Result<usize, Number> {
    put(&encode_dictionary(entries)?, out)
}

/// "An older one, lent whole, stands for field 3 of a whole file: 14 and that file's check come first, its own field 3 is
/// checked but not used, and a zone ID is answered without reading the older one; places in it are 0, and what follows it is
/// ignored."
pub fn ask_named_old(
    bytes: &[u8],
    dictionary: &[u8],
    name: &[u8],
    ticks: i64,
    edition: Edition,
) -> Result<Answer, Refusal> {
    if !in_range(ticks) {
        return Err(Number::InstantRange.at(0));
    }
    let contents = read_file(bytes)?;
    let zone = |name: &[u8]| {
        let id = |number: usize| &bytes[contents.pool[number].clone()];
        contents.zones.iter().map(|(_, zone)| zone).find(|zone| id(zone.id) == name)
    };
    let found = match zone(name) {
        Some(found) => found,
        None => {
            let refuse = |number: Number| number.at(0);
            let (entries, _) = read_dictionary(dictionary).map_err(refuse)?;
            let text = |part: &Range<usize>| &dictionary[part.clone()];
            let pairs: Vec<(&[u8], &[u8])> = entries.iter().map(|(key, value)| (text(key), text(value))).collect();
            follow(name, zone, &pairs).map_err(refuse)?
        }
    };
    Ok(answer(&contents.pool, found, ticks, edition))
}
