//! Where two files differ.

use crate::error::{decode, Error};
use crate::ffi;

pub use crate::ffi::Stretch;

/// Lists where two whole files differ in the zone `id`: in time order, each stretch of the instants from `first` to before
/// `last` at which wall offset, savings or name aren't the same in both, and that can't be made longer. Gives how many
/// there are. They are at the front of `list`; the rest of it, and all of it on an error, stays as it was.
///
/// A stretch goes on where the difference becomes another one. Names are compared by their bytes, those of
/// [`Edition::Two`](crate::Edition::Two). A window whose `last` isn't after its `first` has no stretch. `last` may be
/// [`LAST_INSTANT`](crate::LAST_INSTANT) and is out, so that instant is in no window.
///
/// # Errors
///
/// [`Number::InstantOutOfRange`] if `first` or `last` is outside years 1 to 9999; then the errors of a question with
/// [`Mark::ThisIsAll`] on `file`, then those on `other`, of which the error doesn't say which it was; then
/// [`Number::OutputTooShort`] if `list` is shorter than the stretches are many.
///
/// ```
/// use nzd::{Number, Stretch, FIRST_INSTANT, LAST_INSTANT};
///
/// // Zone "A" without savings; in another file it has an hour of them up to 100,000,000 minutes after 1800.
/// let old = b"\0\0\0\0\x00\x03\x01\x01A\x01\x03\x00\x01\x30";
/// let new = b"\0\0\0\0\x00\x03\x01\x01A\x01\x10\0\x02\x02\0\0\x32\x32\x80\xc2\xd7\x2f\0\x30\x30\x01\0";
/// let change = 6_353_376_000_000_000;
///
/// let mut list = [Stretch::default(); 8];
/// let count = nzd::difference(old, new, "A", FIRST_INSTANT, LAST_INSTANT, &mut list)?;
/// assert_eq!(list[..count], [Stretch { first: FIRST_INSTANT, end: change }]);
/// assert_eq!(nzd::difference(old, new, "A", change, LAST_INSTANT, &mut list)?, 0);
///
/// let short = nzd::difference(old, new, "A", 0, 1, &mut []).unwrap_err();
/// assert_eq!(short.number, Number::OutputTooShort);
/// # Ok::<(), nzd::Error>(())
/// ```
///
/// [`Number::InstantOutOfRange`]: crate::Number::InstantOutOfRange
/// [`Number::OutputTooShort`]: crate::Number::OutputTooShort
/// [`Mark::ThisIsAll`]: crate::Mark::ThisIsAll
pub fn difference(
    file: &[u8],
    other: &[u8],
    id: impl AsRef<[u8]>,
    first: i64,
    last: i64,
    list: &mut [Stretch],
) -> Result<usize, Error> {
    let mut count = [0];
    decode(ffi::difference(file, other, id.as_ref(), first, last, ffi::numbers_of(list), &mut count))?;
    Ok(count[0] as usize)
}
