//! A table of interval starts, and the search in one.

use crate::error::{decode, Error};
use crate::ffi;

/// Fills the front of `table` with the starts, in ticks, of the intervals that the zone `id` of a whole file lists, and
/// gives how many there are. The rest of `table`, and all of it on an error, stays as it was.
///
/// They ascend. The first is start of time, as [`i64::MIN`], which is all that a fixed zone has. A zone whose list ends with a
/// tail of yearly rules has no start for that: an instant of the tail is after the last of the list. No zone lists more than
/// 4,096.
///
/// # Errors
///
/// Those of a question with [`Mark::ThisIsAll`](crate::Mark::ThisIsAll), but for
/// [`Number::InstantOutOfRange`](crate::Number::InstantOutOfRange); then
/// [`Number::OutputTooShort`](crate::Number::OutputTooShort) if `table` is shorter than the starts are many.
///
/// ```
/// use nzd::{Bound, Edition, Mark, Number};
///
/// // A zone that goes from +01:00 to +00:00 at 00:00Z, 100,000,000 minutes after 1800.
/// let file = b"\0\0\0\0\x00\x03\x01\x01A\x01\x10\0\x02\x02\0\0\x32\x32\x80\xc2\xd7\x2f\0\x30\x30\x01\0";
/// let change = 6_353_376_000_000_000;
/// let mut table = [0; 16];
/// let count = nzd::interval_starts(file, "A", &mut table)?;
/// assert_eq!(table[..count], [i64::MIN, change]);
/// assert_eq!(nzd::interval_starts(file, "A", &mut table[..1]).unwrap_err().number, Number::OutputTooShort);
///
/// // The start of the interval that holds an instant, without a look at the file.
/// let start = table[nzd::find_start(&table[..count], change + 5)?.entry];
/// assert_eq!(nzd::ask(file, "A", change + 5, Mark::ThisIsAll, Edition::Two)?.start, Bound::At(start));
/// # Ok::<(), nzd::Error>(())
/// ```
pub fn interval_starts(file: &[u8], id: impl AsRef<[u8]>, table: &mut [i64]) -> Result<usize, Error> {
    let mut count = [0];
    decode(ffi::interval_starts(file, id.as_ref(), table, &mut count))?;
    Ok(count[0] as usize)
}

/// What a search by halving came to.
#[derive(Clone, Copy, Debug, PartialEq, Eq, Hash)]
pub struct Search {
    /// The number, from 0, of the entry that is left.
    pub entry: usize,
    /// How many entries were looked at: at most the least k with 2 to the k not below the table's length.
    pub looks: usize,
}

/// Searches a table by halving. While more than one entry is left it looks at the one half their number in, rounded down, and
/// keeps that and those behind it if it isn't after the instant, else those before it.
///
/// Of a table that ascends, equal entries allowed, and whose first entry isn't after the instant, the entry is the last that
/// isn't. Any other table gets what the rule gives, and so does any instant, in range or not.
///
/// # Errors
///
/// [`Number::NotFound`](crate::Number::NotFound) for an empty table. There is no other.
///
/// ```
/// use nzd::{Number, Search};
///
/// assert_eq!(nzd::find_start(&[1, 2, 3], 2), Ok(Search { entry: 1, looks: 2 }));
/// assert_eq!(nzd::find_start(&[1, 2, 3], 0), Ok(Search { entry: 0, looks: 1 }));
/// assert_eq!(nzd::find_start(&[], 0).unwrap_err().number, Number::NotFound);
/// ```
#[inline]
pub fn find_start(table: &[i64], instant: i64) -> Result<Search, Error> {
    let mut out = [0; 2];
    decode(ffi::find_start(table, instant, &mut out))?;
    let [entry, looks] = out.map(|number| number as usize);
    Ok(Search { entry, looks })
}
