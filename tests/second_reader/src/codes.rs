//! 01, "Small codes": readers and writers.
//!
//! "A small code on its own is read from the front of its bytes as from a field's data, gives value and length,
//! ignores what follows, and has place 0: 9 if they end early; writing, 7 for a number the code can't carry (for a
//! text 4, then 8), then 15." Place 0 is left to the callers; here only the number is given.

use crate::number::Number;
use crate::transition::{in_range, Transition, TICKS_PER_HOUR, TICKS_PER_MINUTE};
use std::ops::Range;

/// A value and the length of its code, or the number of the refusal.
pub type Read<T> = Result<(T, usize), Number>;

/// "1,024 bytes a string"
pub const LONGEST_TEXT: usize = 1024;

const DAY_MS: i64 = 86_400_000;
const HALF_HOUR_MS: i64 = 1_800_000;
const MINUTE_MS: i64 = 60_000;
const SECOND_MS: i64 = 1_000;

/// "minutes since 1800-01-01T00:00Z (tick -53646624000000000)"
const YEAR_1800: i64 = -53_646_624_000_000_000;
const FIRST_HOURS: i64 = 128;
const LAST_HOURS: i64 = 2_097_151;
const FIRST_MINUTES: i64 = 2_097_152;
const LARGEST_COUNT: i64 = 2_147_483_647;

/// "seven bits a byte, low first, top bit set on all but the last. Shortest form only."
///
/// `largest` is the largest value: 2^31 - 1 for a count, 2^32 - 1 for the number behind a signed count. A code cut
/// by the bytes' end is 9; the fifth byte alone decides before that (reading 6). A field's size may be padded.
fn read_groups(bytes: &[u8], largest: u64, may_be_padded: bool) -> Read<u64> {
    let mut value: u64 = 0;
    let mut place = 0;
    loop {
        let byte = *bytes.get(place).ok_or(Number::BadData)?;
        value += u64::from(byte & 0x7f) << (7 * place);
        if byte & 0x80 == 0 {
            // A last byte 0 behind others adds nothing: the form isn't the shortest.
            let padded = place > 0 && byte == 0;
            return if padded && !may_be_padded || value > largest {
                Err(Number::BadCode)
            } else {
                Ok((value, place + 1))
            };
        }
        if place == 4 {
            return Err(Number::BadCode);
        }
        place += 1;
    }
}

fn groups(mut value: u64) -> Vec<u8> {
    let mut bytes = Vec::new();
    while value >= 0x80 {
        bytes.push((value & 0x7f) as u8 | 0x80);
        value >>= 7;
    }
    bytes.push(value as u8);
    bytes
}

/// "Count: 0 to 2147483647".
pub fn read_count(bytes: &[u8]) -> Read<u32> {
    let (value, length) = read_groups(bytes, LARGEST_COUNT as u64, false)?;
    Ok((value as u32, length))
}

/// A field's size, 02, Ask 6: "Allow trailing zero groups in a field size only, up to five bytes; all other counts stay
/// shortest. The size reading must now say how many bytes it took".
pub fn read_size(bytes: &[u8]) -> Read<u32> {
    let (value, length) = read_groups(bytes, LARGEST_COUNT as u64, true)?;
    Ok((value as u32, length))
}

/// The code of a count.
pub fn encode_count(value: i64) -> Result<Vec<u8>, Number> {
    if !(0..=LARGEST_COUNT).contains(&value) {
        return Err(Number::BadCode);
    }
    Ok(groups(value as u64))
}

/// "Signed count: 0, -1, 1, -2 map to 0, 1, 2, 3 and so on, over all 32-bit values."
pub fn read_signed_count(bytes: &[u8]) -> Read<i32> {
    let (mapped, length) = read_groups(bytes, u64::from(u32::MAX), false)?;
    let half = (mapped / 2) as i64;
    let value = if mapped % 2 == 0 { half } else { -half - 1 };
    Ok((value as i32, length))
}

/// The code of a signed count.
pub fn encode_signed_count(value: i64) -> Result<Vec<u8>, Number> {
    if !(-LARGEST_COUNT - 1..=LARGEST_COUNT).contains(&value) {
        return Err(Number::BadCode);
    }
    let mapped = if value >= 0 { 2 * value } else { -2 * value - 1 };
    Ok(groups(mapped as u64))
}

/// "Offset: add 86,400,000 ms; the sum is 1 to 172,799,999. First form that fits [...] A later form for a value that
/// fits an earlier one is refused, as is prefix 111."
pub fn read_offset(bytes: &[u8]) -> Read<i32> {
    let first = *bytes.first().ok_or(Number::BadData)?;
    // Each form: its length, its unit, and the next larger unit, whose multiples belong to an earlier form.
    let (length, unit, earlier) = match first >> 5 {
        0..=3 => (1, HALF_HOUR_MS, None),
        4 => (2, MINUTE_MS, Some(HALF_HOUR_MS)),
        5 => (3, SECOND_MS, Some(MINUTE_MS)),
        6 => (4, 1, Some(SECOND_MS)),
        _ => return Err(Number::BadCode),
    };
    let code = bytes.get(..length).ok_or(Number::BadData)?;
    let mut number = if length == 1 { i64::from(first) } else { i64::from(first & 0x1f) };
    for &byte in &code[1..] {
        number = number * 256 + i64::from(byte);
    }
    let sum = number * unit;
    let fits_earlier = earlier.is_some_and(|larger| sum % larger == 0);
    if fits_earlier || !(1..2 * DAY_MS).contains(&sum) {
        return Err(Number::BadCode);
    }
    Ok(((sum - DAY_MS) as i32, length))
}

/// The code of an offset in milliseconds.
pub fn encode_offset(ms: i64) -> Result<Vec<u8>, Number> {
    if !(-DAY_MS + 1..DAY_MS).contains(&ms) {
        return Err(Number::BadCode);
    }
    let sum = ms + DAY_MS;
    // "100 and 13 bits of minutes; 101 and 21 bits of seconds; 110 and 29 bits of milliseconds"
    let (prefix, length, number) = if sum % HALF_HOUR_MS == 0 {
        return Ok(vec![(sum / HALF_HOUR_MS) as u8]);
    } else if sum % MINUTE_MS == 0 {
        (0x80, 2, sum / MINUTE_MS)
    } else if sum % SECOND_MS == 0 {
        (0xa0, 3, sum / SECOND_MS)
    } else {
        (0xc0, 4, sum)
    };
    let mut code = (number as u32).to_be_bytes()[4 - length..].to_vec();
    code[0] |= prefix;
    Ok(code)
}

/// The previous instant, where it is one: "the previous, which must be finite"; none, a mark and an instant outside
/// the range are not (reading 34).
fn finite(previous: Option<Transition>) -> Option<i64> {
    match previous {
        Some(Transition::Finite(ticks)) if in_range(ticks) => Some(ticks),
        _ => None,
    }
}

/// "Transition: a count. 0 start of time; 1 end of time; 2 then eight bytes, high first, signed ticks; 3 to 127
/// refused; 128 to 2097151 hours after the previous, which must be finite; from 2097152 on, minutes since
/// 1800-01-01T00:00Z. A finite result outside the range gives 7."
pub fn read_transition(bytes: &[u8], previous: Option<Transition>) -> Read<Transition> {
    let (count, mut length) = read_count(bytes)?;
    let ticks = match i64::from(count) {
        0 => return Ok((Transition::StartOfTime, length)),
        1 => return Ok((Transition::EndOfTime, length)),
        2 => {
            let eight = bytes.get(length..length + 8).ok_or(Number::BadData)?;
            length += 8;
            // The shift keeps the first byte's sign bit at the top after eight bytes.
            eight.iter().fold(0i64, |ticks, &byte| (ticks << 8) | i64::from(byte))
        }
        hours @ FIRST_HOURS..=LAST_HOURS => finite(previous).ok_or(Number::BadCode)? + hours * TICKS_PER_HOUR,
        minutes @ FIRST_MINUTES.. => YEAR_1800 + minutes * TICKS_PER_MINUTE,
        _ => return Err(Number::BadCode),
    };
    if !in_range(ticks) {
        return Err(Number::BadCode);
    }
    Ok((Transition::Finite(ticks), length))
}

/// The hours form of an instant, where it has one.
pub(crate) fn encode_hours(ticks: i64, previous: Option<Transition>) -> Option<Vec<u8>> {
    let after = ticks - finite(previous)?;
    let hours = after / TICKS_PER_HOUR;
    let fits = after % TICKS_PER_HOUR == 0 && (FIRST_HOURS..=LAST_HOURS).contains(&hours);
    fits.then(|| groups(hours as u64))
}

/// The minutes form of an instant, where it has one.
pub(crate) fn encode_minutes(ticks: i64) -> Option<Vec<u8>> {
    let since = ticks - YEAR_1800;
    let minutes = since / TICKS_PER_MINUTE;
    let fits = since % TICKS_PER_MINUTE == 0 && (FIRST_MINUTES..=LARGEST_COUNT).contains(&minutes);
    fits.then(|| groups(minutes as u64))
}

/// The ticks form of an instant.
pub(crate) fn encode_ticks(ticks: i64) -> Vec<u8> {
    let mut code = vec![2];
    code.extend(ticks.to_be_bytes());
    code
}

/// "The writer takes the first that fits: mark, hours, minutes, ticks."
pub fn encode_transition(value: Transition, previous: Option<Transition>) -> Result<Vec<u8>, Number> {
    match value {
        Transition::StartOfTime => Ok(vec![0]),
        Transition::EndOfTime => Ok(vec![1]),
        Transition::Finite(ticks) if !in_range(ticks) => Err(Number::BadCode),
        Transition::Finite(ticks) => {
            Ok(encode_hours(ticks, previous).or_else(|| encode_minutes(ticks)).unwrap_or_else(|| encode_ticks(ticks)))
        }
    }
}

/// "a length-and-bytes text gives 4, then 9 if cut, then 8"; the value is the part that holds the text's bytes.
pub fn read_text(bytes: &[u8]) -> Read<Range<usize>> {
    let (count, start) = read_count(bytes)?;
    let count = count as usize;
    if count > LONGEST_TEXT {
        return Err(Number::TooLarge);
    }
    let end = start + count;
    let text = bytes.get(start..end).ok_or(Number::BadData)?;
    if std::str::from_utf8(text).is_err() {
        return Err(Number::BadText);
    }
    Ok((start..end, end))
}

/// The code of a text: its length as a count, and its bytes.
pub fn encode_text(text: &[u8]) -> Result<Vec<u8>, Number> {
    if text.len() > LONGEST_TEXT {
        return Err(Number::TooLarge);
    }
    if std::str::from_utf8(text).is_err() {
        return Err(Number::BadText);
    }
    let mut code = groups(text.len() as u64);
    code.extend(text);
    Ok(code)
}

/// Puts a code at the front of `out` and gives its length: "then 15", with "all lent output as found".
pub(crate) fn put(code: &[u8], out: &mut [u8]) -> Result<usize, Number> {
    out.get_mut(..code.len()).ok_or(Number::OutputShort)?.copy_from_slice(code);
    Ok(code.len())
}

/// Writes a count.
pub fn write_count(value: i64, out: &mut [u8]) -> Result<usize, Number> {
    put(&encode_count(value)?, out)
}

/// Writes a signed count.
pub fn write_signed_count(value: i64, out: &mut [u8]) -> Result<usize, Number> {
    put(&encode_signed_count(value)?, out)
}

/// Writes an offset in milliseconds.
pub fn write_offset(ms: i64, out: &mut [u8]) -> Result<usize, Number> {
    put(&encode_offset(ms)?, out)
}

/// Writes a transition in the writer's form.
pub fn write_transition(value: Transition, previous: Option<Transition>, out: &mut [u8]) -> Result<usize, Number> {
    put(&encode_transition(value, previous)?, out)
}

/// Writes a length-and-bytes text.
pub fn write_text(text: &[u8], out: &mut [u8]) -> Result<usize, Number> {
    put(&encode_text(text)?, out)
}
