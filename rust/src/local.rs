//! Wall time to instants.

use crate::error::decode;
use crate::{ffi, Error, Number};

/// The instants, in ticks, at which clocks of a zone show a local time.
#[derive(Clone, Copy, Debug, PartialEq, Eq, Hash)]
pub enum LocalInstants {
    /// None, as where clocks went forward over that time.
    None,
    /// One.
    One(i64),
    /// Two, as where clocks went back over that time.
    Two {
        /// The first of them.
        earlier: i64,
        /// The second.
        later: i64,
    },
    /// Three or more: only short intervals in odd files give as many.
    More {
        /// How many.
        count: usize,
        /// The first of them.
        earliest: i64,
        /// The last of them.
        latest: i64,
    },
}

impl LocalInstants {
    /// How many there are.
    pub fn count(&self) -> usize {
        match self {
            LocalInstants::None => 0,
            LocalInstants::One(_) => 1,
            LocalInstants::Two { .. } => 2,
            LocalInstants::More { count, .. } => *count,
        }
    }

    /// The first of them.
    pub fn earliest(&self) -> Option<i64> {
        match *self {
            LocalInstants::None => None,
            LocalInstants::One(ticks) => Some(ticks),
            LocalInstants::Two { earlier, .. } => Some(earlier),
            LocalInstants::More { earliest, .. } => Some(earliest),
        }
    }

    /// The last of them.
    pub fn latest(&self) -> Option<i64> {
        match *self {
            LocalInstants::None => None,
            LocalInstants::One(ticks) => Some(ticks),
            LocalInstants::Two { later, .. } => Some(later),
            LocalInstants::More { latest, .. } => Some(latest),
        }
    }
}

/// Asks which instants of years 1 to 9999 read as the local time `local` in the zone `id`: those that, with the zone's
/// wall offset at them added, are `local`, ticks since 1970-01-01T00:00 as clocks of the zone show it.
///
/// The bytes are all there is, and what follows the zone is not looked at. The errors are those of a question with
/// [`Mark::ThisIsAll`](crate::Mark::ThisIsAll), save [`Number::InstantOutOfRange`]: any number is taken for a local time.
///
/// ```
/// use nzd::{Edition, LocalInstants, Mark};
///
/// // A zone that goes from +01:00 to +00:00 at 00:00Z, 100,000,000 minutes after 1800.
/// let file = b"\0\0\0\0\x00\x03\x01\x01A\x01\x10\0\x02\x02\0\0\x32\x32\x80\xc2\xd7\x2f\0\x30\x30\x01\0";
/// let hour = 3600 * nzd::TICKS_PER_SECOND;
/// let change = 6_353_376_000_000_000;
///
/// // Clocks that went back show the hour from then on twice.
/// let LocalInstants::Two { earlier, later } = nzd::map_local(file, "A", change)? else { panic!("one reading only") };
/// assert_eq!((earlier, later), (change - hour, change));
/// assert_eq!(nzd::ask(file, "A", earlier, Mark::ThisIsAll, Edition::Two)?.wall_offset_ms, 3_600_000);
/// assert_eq!(nzd::ask(file, "A", later, Mark::ThisIsAll, Edition::Two)?.wall_offset_ms, 0);
///
/// assert_eq!(nzd::map_local(file, "A", change + hour)?, LocalInstants::One(change + hour));
/// assert_eq!(nzd::map_local(file, "A", i64::MAX)?, LocalInstants::None);
/// # Ok::<(), nzd::Error>(())
/// ```
pub fn map_local(file: &[u8], id: impl AsRef<[u8]>, local: i64) -> Result<LocalInstants, Error> {
    let mut out = [0; 3];
    instants(ffi::map_local(file, id.as_ref(), local, &mut out), out)
}

/// A result, and the numbers of an answer.
#[inline]
pub(crate) fn instants(result: u64, out: [i64; 3]) -> Result<LocalInstants, Error> {
    match decode(result) {
        Ok(_) => Ok(match out {
            [1, only, _] => LocalInstants::One(only),
            [2, earlier, later] => LocalInstants::Two { earlier, later },
            [count, earliest, latest] => LocalInstants::More { count: count as usize, earliest, latest },
        }),
        Err(error) if error.number == Number::NoInstant => Ok(LocalInstants::None),
        Err(error) => Err(error),
    }
}
