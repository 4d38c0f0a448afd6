//! Closing up the string pool.

use crate::error::{decode, Error};
use crate::ffi;

/// Closes up the string pool of a whole file: writes to the front of `out` the file without the pool strings that nothing
/// mentions, the others in order of their mentions, the most mentioned first and ties in their old order, and gives its
/// length. The rest of `out`, and all of it on an error, stays as it was.
///
/// Every question answers as before, but for places. Field sizes are shortest; all else is copied, so the file gets its
/// preferred form by [`normalize`](crate::normalize) only, before or behind. It may be longer than its source, by a few
/// bytes, where a string that few mention gets a number that takes two.
///
/// # Errors
///
/// The first fault of the file, whatever the length of `out`; then [`Number::UnreadField`] at the first field with the ID 4,
/// 5 or above 7; then [`Number::TooLarge`], at place 0, if the new file would pass 4,194,304 bytes; then
/// [`Number::OutputTooShort`] if `out` is shorter than it.
///
/// ```
/// use nzd::{Edition, Mark, Number};
///
/// // The strings "A", "B" and "C", and a fixed zone "B" with the name "C".
/// let file = b"\0\0\0\0\x00\x07\x03\x01A\x01B\x01C\x01\x04\x01\x01\x30\x02";
/// let mut out = [0; 32];
/// let length = nzd::close_pool(file, &mut out)?;
/// let closed = &out[..length];
/// assert_eq!(closed, b"\0\0\0\0\x00\x05\x02\x01B\x01C\x01\x04\x00\x01\x30\x01");
/// assert_eq!(nzd::ask(closed, "B", 0, Mark::ThisIsAll, Edition::Two), nzd::ask(file, "B", 0, Mark::ThisIsAll, Edition::Two));
/// assert_eq!(nzd::close_pool(file, &mut []).unwrap_err().number, Number::OutputTooShort);
///
/// // What field 4 mentions isn't known.
/// let unread = [&file[..], b"\x04\x00"].concat();
/// let error = nzd::close_pool(&unread, &mut out).unwrap_err();
/// assert_eq!((error.number, error.place), (Number::UnreadField, file.len()));
/// # Ok::<(), nzd::Error>(())
/// ```
///
/// [`Number::OutputTooShort`]: crate::Number::OutputTooShort
/// [`Number::TooLarge`]: crate::Number::TooLarge
/// [`Number::UnreadField`]: crate::Number::UnreadField
pub fn close_pool(file: &[u8], out: &mut [u8]) -> Result<usize, Error> {
    decode(ffi::close_pool(file, out))
}
