//! The codes of the older edition, the resource data of Noda Time 1.0, and its dictionary.
//!
//! As in [`codes`](crate::codes) a reader takes a code from the front of its bytes and ignores what follows it, a writer puts one to the
//! front of `out`, and places of errors are 0. Preferred forms only are read and written.

use crate::codes::number;
use crate::error::decode;
use crate::{ffi, part, text, Error};

/// Reads a count, 0 to 2147483647.
///
/// ```
/// assert_eq!(nzd::older::read_count(&[0x00, 0xff]), Ok((0x0f, 1)));
/// ```
pub fn read_count(bytes: &[u8]) -> Result<(i64, usize), Error> {
    number(|out| ffi::old_read_count(bytes, out))
}

/// Reads an offset in milliseconds, inside 24 hours either way.
///
/// ```
/// assert_eq!(nzd::older::read_offset(&[0x3f]), Ok((0, 1)));
/// assert_eq!(nzd::older::read_offset(&[0x84, 0x00, 0x00]), Ok((1000, 3)));
/// ```
pub fn read_offset(bytes: &[u8]) -> Result<(i64, usize), Error> {
    number(|out| ffi::old_read_offset(bytes, out))
}

/// Reads a string, its length as a count and its bytes. It is a part of `bytes`.
///
/// ```
/// assert_eq!(nzd::older::read_string(b"\xf3UTC and more"), Ok(("UTC", 4)));
/// ```
pub fn read_string(bytes: &[u8]) -> Result<(&str, usize), Error> {
    let mut out = [0; 2];
    decode(ffi::old_read_string(bytes, &mut out))?;
    let [place, length] = out;
    Ok((text(part(bytes, place, length)), (place + length) as usize))
}

/// Checks a dictionary and gives its entries, which are parts of `bytes`, and its length.
///
/// ```
/// use nzd::Number;
///
/// // A leads to B, and B to itself; the byte behind is ignored.
/// let (entries, length) = nzd::older::read_dictionary(b"\xf2\xf1A\xf1B\xf1B\xf1B\xff")?;
/// assert_eq!(entries.collect::<Vec<_>>(), [("A", "B"), ("B", "B")]);
/// assert_eq!(length, 9);
/// let twice = nzd::older::read_dictionary(b"\xf2\xf1A\xf1B\xf1A\xf1B").unwrap_err();
/// assert_eq!(twice.number, Number::SecondAlias);
/// # Ok::<(), nzd::Error>(())
/// ```
pub fn read_dictionary(bytes: &[u8]) -> Result<(Entries<'_>, usize), Error> {
    let mut out = [0; 2];
    decode(ffi::old_read_dictionary(bytes, &mut out))?;
    let [left, length] = out;
    let (_, at) = read_count(bytes)?;
    Ok((Entries { left: left as usize, rest: &bytes[at..length as usize] }, length as usize))
}

/// The entries of a dictionary: keys and values, in their order.
#[derive(Clone, Debug)]
pub struct Entries<'a> {
    left: usize,
    rest: &'a [u8],
}

impl<'a> Iterator for Entries<'a> {
    type Item = (&'a str, &'a str);

    fn next(&mut self) -> Option<Self::Item> {
        self.left = self.left.checked_sub(1)?;
        let (key, behind) = read_string(self.rest).ok()?;
        let (value, length) = read_string(&self.rest[behind..]).ok()?;
        self.rest = &self.rest[behind + length..];
        Some((key, value))
    }

    fn size_hint(&self) -> (usize, Option<usize>) {
        (self.left, Some(self.left))
    }
}

impl ExactSizeIterator for Entries<'_> {}

/// Writes a count, 0 to 2147483647.
///
/// ```
/// let mut out = [0; 5];
/// assert_eq!(nzd::older::write_count(0x8f, &mut out), Ok(2));
/// assert_eq!(out, [0x80, 0x00, 0, 0, 0]);
/// ```
pub fn write_count(value: u64, out: &mut [u8]) -> Result<usize, Error> {
    decode(ffi::old_write_count(value, out))
}

/// Writes an offset in milliseconds, inside 24 hours either way.
///
/// ```
/// let mut out = [0; 5];
/// assert_eq!(nzd::older::write_offset(-1, &mut out), Ok(5));
/// assert_eq!(out, [0xfd, 0xff, 0xff, 0xff, 0xff]);
/// ```
pub fn write_offset(ms: i64, out: &mut [u8]) -> Result<usize, Error> {
    decode(ffi::old_write_offset(ms, out))
}

/// Writes a string, its length as a count and its bytes, which must be UTF-8.
///
/// ```
/// let mut out = [0; 4];
/// assert_eq!(nzd::older::write_string("UTC", &mut out), Ok(4));
/// assert_eq!(&out, b"\xf3UTC");
/// ```
pub fn write_string(text: impl AsRef<[u8]>, out: &mut [u8]) -> Result<usize, Error> {
    decode(ffi::old_write_string(text.as_ref(), out))
}

/// Writes the dictionary of the first `count` pairs of strings in `pairs`, one behind the other, each as [`write_string`] writes it.
///
/// ```
/// let mut out = [0; 8];
/// assert_eq!(nzd::older::write_dictionary(1, b"\xf1A\xf1B", &mut out), Ok(5));
/// assert_eq!(&out[..5], b"\xf1\xf1A\xf1B");
/// ```
pub fn write_dictionary(count: u64, pairs: &[u8], out: &mut [u8]) -> Result<usize, Error> {
    let mut length = [0];
    decode(ffi::old_write_dictionary(count, pairs, out, &mut length))?;
    Ok(length[0] as usize)
}
