//! The small codes that zone files are made of.
//!
//! A reader takes a code from the front of its bytes and gives the value and the code's length; what follows the code
//! is ignored. A writer puts a code to the front of `out` and gives its length. Places of errors are 0.

use crate::error::decode;
use crate::{ffi, part, text, Bound, Error};

/// Reads a count, 0 to 2147483647.
///
/// ```
/// assert_eq!(nzd::codes::read_count(&[0xea, 0x02, 0xff]), Ok((362, 2)));
/// ```
pub fn read_count(bytes: &[u8]) -> Result<(i64, usize), Error> {
    number(|out| ffi::read_count(bytes, out))
}

/// Reads a signed count, over all 32-bit values.
///
/// ```
/// assert_eq!(nzd::codes::read_signed_count(&[0x03]), Ok((-2, 1)));
/// ```
pub fn read_signed_count(bytes: &[u8]) -> Result<(i64, usize), Error> {
    number(|out| ffi::read_signed_count(bytes, out))
}

/// Reads an offset in milliseconds, inside 24 hours either way.
///
/// ```
/// // +05:45
/// assert_eq!(nzd::codes::read_offset(&[0x86, 0xf9]), Ok((20_700_000, 2)));
/// ```
pub fn read_offset(bytes: &[u8]) -> Result<(i64, usize), Error> {
    number(|out| ffi::read_offset(bytes, out))
}

/// Reads a text, its length as a count and its bytes. It is a part of `bytes`.
///
/// ```
/// assert_eq!(nzd::codes::read_text(b"\x03UTC and more"), Ok(("UTC", 4)));
/// ```
pub fn read_text(bytes: &[u8]) -> Result<(&str, usize), Error> {
    let mut out = [0; 2];
    decode(ffi::read_text(bytes, &mut out))?;
    let [place, length] = out;
    Ok((text(part(bytes, place, length)), (place + length) as usize))
}

/// Reads a transition. `previous` is the instant of the transition before it, if that is an instant.
///
/// ```
/// use nzd::Bound;
///
/// // 5,040 hours after 1970.
/// assert_eq!(nzd::codes::read_transition(&[0xb0, 0x27], Some(0)), Ok((Bound::At(181_440_000_000_000), 2)));
/// assert_eq!(nzd::codes::read_transition(&[0x00], None), Ok((Bound::StartOfTime, 1)));
/// ```
pub fn read_transition(bytes: &[u8], previous: Option<i64>) -> Result<(Bound, usize), Error> {
    let mut out = [0; 3];
    decode(ffi::read_transition(bytes, previous.unwrap_or(0), previous.is_some(), &mut out))?;
    let [kind, ticks, length] = out;
    let value = match kind {
        0 => Bound::StartOfTime,
        1 => Bound::EndOfTime,
        _ => Bound::At(ticks),
    };
    Ok((value, length as usize))
}

/// Writes a count, 0 to 2147483647.
///
/// ```
/// let mut out = [0; 5];
/// assert_eq!(nzd::codes::write_count(362, &mut out), Ok(2));
/// assert_eq!(out, [0xea, 0x02, 0, 0, 0]);
/// ```
pub fn write_count(value: i64, out: &mut [u8]) -> Result<usize, Error> {
    decode(ffi::write_count(value, out))
}

/// Writes a signed count, over all 32-bit values.
///
/// ```
/// let mut out = [0; 5];
/// assert_eq!(nzd::codes::write_signed_count(-2_147_483_648, &mut out), Ok(5));
/// assert_eq!(out, [0xff, 0xff, 0xff, 0xff, 0x0f]);
/// ```
pub fn write_signed_count(value: i64, out: &mut [u8]) -> Result<usize, Error> {
    decode(ffi::write_signed_count(value, out))
}

/// Writes an offset in milliseconds, inside 24 hours either way.
///
/// ```
/// let mut out = [0; 4];
/// // -00:01:15
/// assert_eq!(nzd::codes::write_offset(-75_000, &mut out), Ok(3));
/// assert_eq!(out, [0xa1, 0x51, 0x35, 0]);
/// ```
pub fn write_offset(ms: i64, out: &mut [u8]) -> Result<usize, Error> {
    decode(ffi::write_offset(ms, out))
}

/// Writes a text, its length as a count and its bytes, which must be UTF-8.
///
/// ```
/// let mut out = [0; 4];
/// assert_eq!(nzd::codes::write_text("UTC", &mut out), Ok(4));
/// assert_eq!(&out, b"\x03UTC");
/// ```
pub fn write_text(text: impl AsRef<[u8]>, out: &mut [u8]) -> Result<usize, Error> {
    decode(ffi::write_text(text.as_ref(), out))
}

/// Writes a transition in the first form that fits: mark, hours after the previous, minutes since 1800, ticks.
/// `previous` is the instant of the transition before it, if that is an instant.
///
/// ```
/// use nzd::Bound;
///
/// let mut out = [0; 9];
/// // 128 hours after 1970.
/// assert_eq!(nzd::codes::write_transition(Bound::At(4_608_000_000_000), Some(0), &mut out), Ok(2));
/// assert_eq!(out[..2], [0x80, 0x01]);
/// ```
pub fn write_transition(value: Bound, previous: Option<i64>, out: &mut [u8]) -> Result<usize, Error> {
    let (kind, ticks) = match value {
        Bound::StartOfTime => (0, 0),
        Bound::EndOfTime => (1, 0),
        Bound::At(ticks) => (2, ticks),
    };
    decode(ffi::write_transition(kind, ticks, previous.unwrap_or(0), previous.is_some(), out))
}

/// A code that gives a value and a length.
pub(crate) fn number(read: impl FnOnce(&mut [i64; 2]) -> u64) -> Result<(i64, usize), Error> {
    let mut out = [0; 2];
    decode(read(&mut out))?;
    let [value, length] = out;
    Ok((value, length as usize))
}
