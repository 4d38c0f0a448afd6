//! Reading and rewriting Noda Time's zone files (NodaZoneData, `.nzd`), over a proved library.
//!
//! A file is lent as bytes. Any bytes, any zone ID and any instant get an answer or an [`Error`]; nothing has to be
//! checked first. The bytes may be the first part of a file that is still arriving: what is said of them then stays
//! true whatever bytes follow. A [`Receiver`] takes a file in pieces.
//!
//! Instants are ticks of 100 ns since 1970-01-01T00:00Z, which [`ticks_of_unix_seconds`] and [`ticks_of_system_time`]
//! give; offsets and savings are milliseconds. A local time is ticks since 1970-01-01T00:00 as clocks of a zone show it;
//! [`map_local`] gives the instants that read that way. [`intervals`] gives all intervals of a zone from an instant on.
//! Of a [`Zone`], which is found once, repeated questions cost less, and over a [`ZoneTable`] of its answers, in lent room, least.
//! [`locations`] gives the places of zones on the map.
//!
//! [`difference`] lists where two files differ in a zone, and [`replay`] finds the first record of a trace that a file
//! contradicts. [`interval_starts`] fills a table for lookups by [`find_start`] without the file. [`normalize`] writes a
//! file's preferred form, and [`close_pool`] a file without the strings that it doesn't use.
//!
//! ```
//! // A file with one fixed zone, "UTC".
//! let file = b"\0\0\0\0\x00\x05\x01\x03UTC\x01\x04\x00\x01\x30\x00";
//! let answer = nzd::ask(file, "UTC", nzd::ticks_of_unix_seconds(1_711_846_800), nzd::Mark::ThisIsAll, nzd::Edition::Two)?;
//! assert_eq!(answer.wall_offset_ms, 0);
//! assert_eq!(answer.name_str(), "UTC");
//! # Ok::<(), nzd::Error>(())
//! ```
//!
//! The crate is `no_std`; the feature `std`, which is on unless it is turned off, has the conversion from `SystemTime`.
//! It links the archive of the proved library, which is for x86-64 Linux; a call needs up to 82 KB of stack, [`replay`] 141 KB
//! and [`close_pool`] 323 KB, as measured.

#![no_std]

#[cfg(feature = "std")]
extern crate std;

mod closing;
pub mod codes;
mod difference;
mod error;
#[doc(hidden)]
pub mod ffi;
mod intervals;
mod local;
mod locations;
pub mod older;
mod receiver;
mod replay;
mod starts;
mod ticks;
mod zone;

pub use closing::close_pool;
pub use difference::{difference, Stretch};
pub use error::{Error, Number};
pub use intervals::{intervals, Intervals};
pub use local::{map_local, LocalInstants};
pub use locations::{location, locations, Countries, Country, Location, LocationField, Locations, Pin};
pub use receiver::Receiver;
pub use replay::replay;
pub use starts::{find_start, interval_starts, Search};
#[cfg(feature = "std")]
pub use ticks::ticks_of_system_time;
pub use ticks::{ticks_of_unix_seconds, FIRST_INSTANT, LAST_INSTANT, TICKS_PER_SECOND};
pub use zone::{Zone, ZoneIntervals, ZoneTable, ROW_NUMBERS};

use error::decode;

/// Where an interval starts or ends, or what a transition names: an instant or one of the marks, ordered in time.
#[derive(Clone, Copy, Debug, PartialEq, Eq, PartialOrd, Ord, Hash)]
pub enum Bound {
    /// Before every instant.
    StartOfTime,
    /// An instant, in ticks.
    At(i64),
    /// After every instant.
    EndOfTime,
}

/// Whether the lent bytes may be the first part of a file.
#[derive(Clone, Copy, Debug, PartialEq, Eq, Hash)]
pub enum Mark {
    /// More bytes may come: what isn't known yet is [`Number::NotYet`].
    MoreMayCome,
    /// The bytes are all there is.
    ThisIsAll,
}

/// The edition of Noda Time whose name an answer has. All else is the same under both, refusals included.
#[derive(Clone, Copy, Debug, PartialEq, Eq, Hash)]
pub enum Edition {
    /// 1.x, which ignores a fixed zone's name and shows its ID.
    One,
    /// 2.x.
    Two,
}

/// The interval of a zone that holds the asked instant.
#[derive(Clone, Copy, Debug, PartialEq, Eq, Hash)]
pub struct Answer<'a> {
    /// What to add to UTC for the time on the wall, in milliseconds.
    pub wall_offset_ms: i64,
    /// How much of the wall offset is daylight saving, in milliseconds.
    pub savings_ms: i64,
    /// The standard offset, in milliseconds: the wall offset minus the savings, inside 24 hours either way.
    pub standard_offset_ms: i64,
    /// The name in force, as "CEST", or the ID of a fixed zone that has no name, and of every fixed zone under
    /// [`Edition::One`]: a part of the file's bytes, in UTF-8.
    /// [`name_str`](Answer::name_str) has it as text.
    pub name: &'a [u8],
    /// The interval's start, which it holds.
    pub start: Bound,
    /// The interval's end, which it doesn't hold.
    pub end: Bound,
}

impl<'a> Answer<'a> {
    /// The name in force, as "CEST": a part of the file.
    pub fn name_str(&self) -> &'a str {
        text(self.name)
    }
}

/// Checks a whole file: [`normalize`] without room for an output.
///
/// ```
/// use nzd::{Error, Number};
///
/// let file = b"\0\0\0\0\x00\x05\x01\x03UTC\x01\x04\x00\x01\x30\x00";
/// assert_eq!(nzd::check(file), Ok(()));
///
/// // The last byte is missing: the field at place 11 is cut short.
/// let error = nzd::check(&file[..16]).unwrap_err();
/// assert_eq!(error, Error { number: Number::CutShort, place: 11 });
/// assert_eq!(error.to_string(), "cut short (number 2, place 11)");
/// ```
pub fn check(file: &[u8]) -> Result<(), Error> {
    checked(normalize(file, &mut []))
}

/// What normalizing without room says of a file: only a well-formed one gets as far as the output's length.
fn checked(normalized: Result<usize, Error>) -> Result<(), Error> {
    match normalized {
        Ok(_) | Err(Error { number: Number::OutputTooShort, .. }) => Ok(()),
        Err(error) => Err(error),
    }
}

/// Asks for the interval of the zone `id` that holds the instant `ticks`.
///
/// ```
/// use nzd::{Bound, Edition, Mark, Number};
///
/// let file = b"\0\0\0\0\x00\x05\x01\x03UTC\x01\x04\x00\x01\x30\x00";
/// let answer = nzd::ask(file, "UTC", 0, Mark::MoreMayCome, Edition::Two)?;
/// assert_eq!((answer.start, answer.end), (Bound::StartOfTime, Bound::EndOfTime));
/// assert_eq!(answer.standard_offset_ms, answer.wall_offset_ms - answer.savings_ms);
///
/// // Of the first 16 bytes nothing can be said yet: wait for more.
/// let error = nzd::ask(&file[..16], "UTC", 0, Mark::MoreMayCome, Edition::Two).unwrap_err();
/// assert_eq!(error.number, Number::NotYet);
///
/// // A fixed zone "A" with the name "B".
/// let file = b"\0\0\0\0\x00\x05\x02\x01A\x01B\x01\x04\x00\x01\x30\x01";
/// assert_eq!(nzd::ask(file, "A", 0, Mark::ThisIsAll, Edition::One)?.name_str(), "A");
/// assert_eq!(nzd::ask(file, "A", 0, Mark::ThisIsAll, Edition::Two)?.name_str(), "B");
/// # Ok::<(), nzd::Error>(())
/// ```
pub fn ask(file: &[u8], id: impl AsRef<[u8]>, ticks: i64, mark: Mark, edition: Edition) -> Result<Answer<'_>, Error> {
    let mut out = [0; 7];
    let (more, first) = (mark == Mark::MoreMayCome, edition == Edition::One);
    decode(ffi::ask(file, id.as_ref(), ticks, more, first, &mut out))?;
    Ok(answer(file, out))
}

/// Asks for the interval of the zone `id` that holds the instant `ticks`, of bytes of which more may come: [`ask`] with
/// [`Mark::MoreMayCome`]. Of a file that is all there use [`ask`] with [`Mark::ThisIsAll`].
///
/// ```
/// use nzd::{Edition, Mark, Number};
///
/// let file = b"\0\0\0\0\x00\x05\x01\x03UTC\x01\x04\x00\x01\x30\x00";
/// assert_eq!(nzd::ask_plain(file, "UTC", 0, Edition::Two)?.savings_ms, 0);
/// // The zone may still come.
/// assert_eq!(nzd::ask_plain(file, "GMT", 0, Edition::Two).unwrap_err().number, Number::NotYet);
/// assert_eq!(nzd::ask(file, "GMT", 0, Mark::ThisIsAll, Edition::Two).unwrap_err().number, Number::NotFound);
/// # Ok::<(), nzd::Error>(())
/// ```
pub fn ask_plain(file: &[u8], id: impl AsRef<[u8]>, ticks: i64, edition: Edition) -> Result<Answer<'_>, Error> {
    let mut out = [0; 7];
    decode(ffi::ask_plain(file, id.as_ref(), ticks, edition == Edition::One, &mut out))?;
    Ok(answer(file, out))
}

/// Asks by name for the interval that holds the instant `ticks`: of the zone with the ID `name` or, where no zone has it,
/// of the zone that the alias `name` leads to. The answer is the zone's own, its name included.
///
/// ```
/// use nzd::{Edition, Mark, Number};
///
/// // A zone "A" and an alias "B" of it.
/// let file = b"\0\0\0\0\x00\x05\x02\x01A\x01B\x01\x03\x00\x01\x30\x03\x03\x01\x01\x00";
/// assert_eq!(nzd::ask_named(file, "B", 0, Mark::MoreMayCome, Edition::Two)?, nzd::ask(file, "A", 0, Mark::ThisIsAll, Edition::Two)?);
/// // [`ask`] takes zone IDs only.
/// assert_eq!(nzd::ask(file, "B", 0, Mark::ThisIsAll, Edition::Two).unwrap_err().number, Number::NotFound);
/// // The aliases have not all arrived; a zone's ID needs none of them.
/// assert_eq!(nzd::ask_named(&file[..20], "B", 0, Mark::MoreMayCome, Edition::Two).unwrap_err().number, Number::NotYet);
/// assert_eq!(nzd::ask_named(&file[..16], "A", 0, Mark::MoreMayCome, Edition::Two)?.name_str(), "A");
/// # Ok::<(), nzd::Error>(())
/// ```
pub fn ask_named(
    file: &[u8],
    name: impl AsRef<[u8]>,
    ticks: i64,
    mark: Mark,
    edition: Edition,
) -> Result<Answer<'_>, Error> {
    let mut out = [0; 7];
    let (more, first) = (mark == Mark::MoreMayCome, edition == Edition::One);
    decode(ffi::ask_named(file, name.as_ref(), ticks, more, first, &mut out))?;
    Ok(answer(file, out))
}

/// Asks by name over a dictionary of the [`older`] edition, which stands for the aliases of a whole file. The file is checked first, its own
/// aliases too, which are then not used; a zone's ID is answered without a look at the dictionary.
///
/// ```
/// use nzd::{Edition, Mark, Number};
///
/// // A zone "A" and an alias "B" of it, and a dictionary in which "X" leads to "A".
/// let file = b"\0\0\0\0\x00\x05\x02\x01A\x01B\x01\x03\x00\x01\x30\x03\x03\x01\x01\x00";
/// let older = b"\xf1\xf1X\xf1A";
/// let answer = nzd::ask(file, "A", 0, Mark::ThisIsAll, Edition::Two)?;
/// assert_eq!(nzd::ask_named_old(file, older, "X", 0, Edition::Two)?, answer);
/// assert_eq!(nzd::ask_named_old(file, older, "B", 0, Edition::Two).unwrap_err().number, Number::NotFound);
/// assert_eq!(nzd::ask_named_old(file, b"", "A", 0, Edition::Two)?.name_str(), "A");
/// # Ok::<(), nzd::Error>(())
/// ```
pub fn ask_named_old<'a>(
    file: &'a [u8],
    older: &[u8],
    name: impl AsRef<[u8]>,
    ticks: i64,
    edition: Edition,
) -> Result<Answer<'a>, Error> {
    let mut out = [0; 7];
    decode(ffi::ask_named_old(file, older, name.as_ref(), ticks, edition == Edition::One, &mut out))?;
    Ok(answer(file, out))
}

/// The numbers of an answered question, with the name as a part of the file.
#[inline]
fn answer(
    file: &[u8],
    [wall_offset_ms, savings_ms, standard_offset_ms, place, length, start, end]: [i64; 7],
) -> Answer<'_> {
    let name = part(file, place, length);
    Answer { wall_offset_ms, savings_ms, standard_offset_ms, name, start: bound(start), end: bound(end) }
}

/// The marks are the numbers that no instant has.
#[inline]
fn bound(ticks: i64) -> Bound {
    if ticks == i64::MIN || ticks == i64::MAX {
        return mark(ticks);
    }
    Bound::At(ticks)
}

/// Apart, so that an instant is given without a choice between three.
#[cold]
fn mark(ticks: i64) -> Bound {
    if ticks < 0 {
        Bound::StartOfTime
    } else {
        Bound::EndOfTime
    }
}

#[inline]
fn part(bytes: &[u8], place: i64, length: i64) -> &[u8] {
    let (place, length) = (place as usize, length as usize);
    &bytes[place..][..length]
}

/// A text that the library gave. It gives none that is not UTF-8.
fn text(bytes: &[u8]) -> &str {
    core::str::from_utf8(bytes).expect("a text of the library is UTF-8")
}

/// The tzdb version that a well-formed file was made from, as "2025b": a part of the file.
///
/// ```
/// let file = b"\0\0\0\0\x00\x01\x00\x02\x06\x052025b";
/// assert_eq!(nzd::version_text(file)?, "2025b");
/// # Ok::<(), nzd::Error>(())
/// ```
pub fn version_text(file: &[u8]) -> Result<&str, Error> {
    let mut out = [0; 2];
    decode(ffi::version_text(file, &mut out))?;
    let [place, length] = out;
    Ok(text(part(file, place, length)))
}

/// Checks a whole file, writes its preferred form to the front of `out`, and gives the length of that, which is at most
/// the file's. The rest of `out`, and all of it on an error, stays as it was.
///
/// # Errors
///
/// The first fault of the file, whatever the length of `out`; then [`Number::OutputTooShort`] if `out` is shorter than the
/// preferred form. So with an empty `out` it is the [`check`] alone, and every well-formed file gets that number.
///
/// ```
/// use nzd::Number;
///
/// let file = b"\0\0\0\0\x00\x05\x01\x03UTC\x01\x04\x00\x01\x30\x00";
/// let mut out = vec![0; file.len()];
/// let length = nzd::normalize(file, &mut out)?;
/// // This file is in preferred form already.
/// assert_eq!(&out[..length], file);
/// assert_eq!(nzd::normalize(file, &mut []).unwrap_err().number, Number::OutputTooShort);
/// assert_eq!(nzd::normalize(&file[..16], &mut []).unwrap_err().number, Number::CutShort);
///
/// // A field's size may have zero groups behind it, up to five bytes in all. The preferred form has none.
/// let padded = b"\0\0\0\0\x00\x83\x00\x01\x01A";
/// let length = nzd::normalize(padded, &mut out)?;
/// assert_eq!(&out[..length], b"\0\0\0\0\x00\x03\x01\x01A");
/// # Ok::<(), nzd::Error>(())
/// ```
pub fn normalize(file: &[u8], out: &mut [u8]) -> Result<usize, Error> {
    decode(ffi::normalize(file, out))
}
