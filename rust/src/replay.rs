//! The replay of a trace.

use crate::error::{decode, Error};
use crate::ffi;

/// Replays a trace of what a phone showed: gives the number, from 0, of the first record whose offset isn't the wall offset
/// that the whole file gives, or whose question it refuses, and `None` where there is no such record. For why a question is
/// refused, [`ask`](crate::ask) it.
///
/// All numbers of a trace are high byte first and, but for instants and offsets, unsigned. It begins with a header of four
/// numbers of four bytes each: how many records there are, where they begin, how many bytes of names there are, and where
/// these begin, both counted from the trace's first byte. A record is an instant in ticks (8 bytes), where its zone's ID
/// begins in the names (4), the ID's length (4), and the offset that was shown, in milliseconds (4). Parts may overlap, and
/// bytes of none are ignored.
///
/// # Errors
///
/// [`Number::BadTrace`](crate::Number::BadTrace) if header, records or names leave the trace, or any record's name leaves the
/// names; no record is asked then. There is no other.
///
/// ```
/// use nzd::Number;
///
/// let file = b"\0\0\0\0\x00\x05\x01\x03UTC\x01\x04\x00\x01\x30\x00";
/// // Two records from byte 16 on, and three bytes of names from byte 56 on. Both ask for UTC at 0; they show 0 ms and 1 ms.
/// let header = [2, 16, 3, 56].map(u32::to_be_bytes).concat();
/// let record = |shown: i32| [&0i64.to_be_bytes()[..], &0u32.to_be_bytes(), &3u32.to_be_bytes(), &shown.to_be_bytes()].concat();
/// let trace = [&header[..], &record(0), &record(1), b"UTC"].concat();
/// assert_eq!(nzd::replay(file, &trace)?, Some(1));
///
/// let right = [&header[..], &record(0), &record(0), b"UTC"].concat();
/// assert_eq!(nzd::replay(file, &right)?, None);
/// assert_eq!(nzd::replay(file, &right[..58]).unwrap_err().number, Number::BadTrace);
/// # Ok::<(), nzd::Error>(())
/// ```
pub fn replay(file: &[u8], trace: &[u8]) -> Result<Option<u64>, Error> {
    let mut record = [0];
    decode(ffi::replay(file, trace, &mut record))?;
    // -1 is none.
    Ok(u64::try_from(record[0]).ok())
}
