//! A zone found once, for repeated questions, and a table of its answers.

use crate::error::decode;
use crate::local::instants;
use crate::{answer, ffi, Answer, Bound, Edition, Error, LocalInstants};

/// A zone of a file that is all there, found once: a question on it reads the zone alone, where [`ask`](crate::ask) walks
/// over all before it each time. It holds the lent file and a few numbers, so a copy costs nothing.
///
/// ```
/// use nzd::{Edition, Mark, Number, Zone};
///
/// // A zone that goes from +01:00 to +00:00 at 00:00Z, 100,000,000 minutes after 1800.
/// let file = b"\0\0\0\0\x00\x03\x01\x01A\x01\x10\0\x02\x02\0\0\x32\x32\x80\xc2\xd7\x2f\0\x30\x30\x01\0";
/// let change = 6_353_376_000_000_000;
/// let zone = Zone::find(file, "A")?;
/// assert_eq!(zone.ask(change - 1, Edition::Two)?.wall_offset_ms, 3_600_000);
/// assert_eq!(zone.ask(change, Edition::Two), nzd::ask(file, "A", change, Mark::ThisIsAll, Edition::Two));
/// assert_eq!(zone.offset_at(change)?, 0);
/// assert_eq!(zone.map_local(change), nzd::map_local(file, "A", change)?);
/// assert_eq!(zone.intervals(nzd::FIRST_INSTANT, Edition::Two).count(), 2);
///
/// assert_eq!(Zone::find(file, "B").unwrap_err().number, Number::NotFound);
/// # Ok::<(), nzd::Error>(())
/// ```
#[derive(Clone, Copy, Debug, PartialEq, Eq, Hash)]
pub struct Zone<'a> {
    file: &'a [u8],
    places: [u64; 5],
}

impl<'a> Zone<'a> {
    /// Finds the zone `id`.
    ///
    /// # Errors
    ///
    /// Those of [`ask`](crate::ask) with [`Mark::ThisIsAll`](crate::Mark::ThisIsAll) at every instant in range: the first
    /// fault up to the end of the zone, or [`Number::NotFound`](crate::Number::NotFound).
    pub fn find(file: &'a [u8], id: impl AsRef<[u8]>) -> Result<Self, Error> {
        let mut places = [0; 5];
        decode(ffi::find_zone(file, id.as_ref(), &mut places))?;
        Ok(Zone { file, places })
    }

    /// Asks for the interval that holds the instant `ticks`: what [`ask`](crate::ask) gives.
    ///
    /// # Errors
    ///
    /// [`Number::InstantOutOfRange`](crate::Number::InstantOutOfRange) only.
    #[inline]
    pub fn ask(&self, ticks: i64, edition: Edition) -> Result<Answer<'a>, Error> {
        let mut out = [0; 7];
        decode(ffi::ask_zone(self.file, &self.places, ticks, edition == Edition::One, &mut out))?;
        Ok(answer(self.file, out))
    }

    /// The wall offset in milliseconds at the instant `ticks`; both editions have the same.
    ///
    /// # Errors
    ///
    /// [`Number::InstantOutOfRange`](crate::Number::InstantOutOfRange) only.
    pub fn offset_at(&self, ticks: i64) -> Result<i64, Error> {
        self.ask(ticks, Edition::Two).map(|answer| answer.wall_offset_ms)
    }

    /// Asks which instants read as the local time `local`: what [`map_local`](crate::map_local) gives.
    #[inline]
    pub fn map_local(&self, local: i64) -> LocalInstants {
        let mut out = [0; 3];
        let result = ffi::map_zone_local(self.file, &self.places, local, &mut out);
        // A zone that was found in these bytes is well formed, so the one refusal is that no instant reads so.
        instants(result, out).unwrap_or(LocalInstants::None)
    }

    /// The answers from the interval that holds the instant `ticks` on, put in the front of `room`, for questions whose time
    /// doesn't grow with the zone's list: [`ROW_NUMBERS`] numbers for each, as many as there is room for or up to the interval
    /// that ends with time. The rest of `room`, and all of it on an error, stays as it was.
    ///
    /// # Errors
    ///
    /// [`Number::InstantOutOfRange`](crate::Number::InstantOutOfRange); then
    /// [`Number::OutputTooShort`](crate::Number::OutputTooShort) if there is no room for one row.
    ///
    /// ```
    /// use nzd::{Bound, Edition, Zone, ROW_NUMBERS};
    ///
    /// // A zone that goes from +01:00 to +00:00 at 00:00Z, 100,000,000 minutes after 1800.
    /// let file = b"\0\0\0\0\x00\x03\x01\x01A\x01\x10\0\x02\x02\0\0\x32\x32\x80\xc2\xd7\x2f\0\x30\x30\x01\0";
    /// let change = 6_353_376_000_000_000;
    /// let zone = Zone::find(file, "A")?;
    /// let mut room = [0; 16 * ROW_NUMBERS];
    /// let table = zone.table(nzd::FIRST_INSTANT, Edition::Two, &mut room)?;
    /// assert_eq!((table.count(), table.end()), (2, Bound::EndOfTime));
    /// assert_eq!(table.ask(change - 1), zone.ask(change - 1, Edition::Two));
    /// assert_eq!(table.offset_at(change)?, 0);
    /// # Ok::<(), nzd::Error>(())
    /// ```
    pub fn table<'r>(&self, ticks: i64, edition: Edition, room: &'r mut [i64]) -> Result<ZoneTable<'a, 'r>, Error> {
        let count = self.list(ticks, edition, room)?;
        let rows: &'r [i64] = room;
        Ok(ZoneTable { zone: *self, edition, rows: &rows[..count * ROW_NUMBERS] })
    }

    /// How many rows were put.
    fn list(&self, ticks: i64, edition: Edition, room: &mut [i64]) -> Result<usize, Error> {
        let mut count = [0];
        decode(ffi::list_answers(self.file, &self.places, ticks, edition == Edition::One, room, &mut count))?;
        Ok(count[0] as usize)
    }

    /// The intervals from the one that holds the instant `ticks` to the last, as by [`intervals`](crate::intervals). Behind the
    /// first few the zone is read once for many of them.
    pub fn intervals(self, ticks: i64, edition: Edition) -> ZoneIntervals<'a> {
        ZoneIntervals { zone: self, edition, next: Some(ticks), alone: ALONE, rows: [0; PIECE], at: 0, end: 0 }
    }
}

/// How many numbers a row of a table of answers has.
pub const ROW_NUMBERS: usize = 7;

/// A table of a [`Zone`]'s answers under one edition, made by [`Zone::table`]. A question over it is answered from the table, where
/// a row has the instant, and else by the zone.
#[derive(Clone, Copy, Debug, PartialEq, Eq, Hash)]
pub struct ZoneTable<'a, 'r> {
    zone: Zone<'a>,
    edition: Edition,
    rows: &'r [i64],
}

impl<'a> ZoneTable<'a, '_> {
    /// Asks for the interval that holds the instant `ticks`, in the table or not: what [`Zone::ask`] gives.
    ///
    /// # Errors
    ///
    /// [`Number::InstantOutOfRange`](crate::Number::InstantOutOfRange) only.
    #[inline]
    pub fn ask(&self, ticks: i64) -> Result<Answer<'a>, Error> {
        let Zone { file, places } = &self.zone;
        let mut out = [0; ROW_NUMBERS];
        decode(ffi::ask_listed(file, places, self.rows, ticks, self.edition == Edition::One, &mut out))?;
        Ok(answer(file, out))
    }

    /// The wall offset in milliseconds at the instant `ticks`.
    ///
    /// # Errors
    ///
    /// [`Number::InstantOutOfRange`](crate::Number::InstantOutOfRange) only.
    pub fn offset_at(&self, ticks: i64) -> Result<i64, Error> {
        self.ask(ticks).map(|answer| answer.wall_offset_ms)
    }

    /// How many answers the table has, at least 1.
    pub fn count(&self) -> usize {
        self.rows.len() / ROW_NUMBERS
    }

    /// The end of the last interval in the table: from then on a question costs what [`Zone::ask`] does.
    pub fn end(&self) -> Bound {
        match self.rows.last() {
            Some(&end) if end < i64::MAX => Bound::At(end),
            _ => Bound::EndOfTime,
        }
    }
}

/// The zone is read for each of the first intervals, since a piece of more costs as much as many questions ..
const ALONE: usize = 16;
/// .. and then once for every 64.
const PIECE: usize = 64 * ROW_NUMBERS;

/// The intervals of a [`Zone`] that are still to come.
#[derive(Clone, Debug)]
pub struct ZoneIntervals<'a> {
    zone: Zone<'a>,
    edition: Edition,
    /// Where the interval behind those in `rows` starts, if there is one.
    next: Option<i64>,
    /// How many more pieces have one row.
    alone: usize,
    rows: [i64; PIECE],
    /// The rows still to be given are those from `at` to `end`.
    at: usize,
    end: usize,
}

impl<'a> Iterator for ZoneIntervals<'a> {
    type Item = Result<Answer<'a>, Error>;

    /// Asks again at the end of the last interval that was put. A question that is refused gives its error once.
    fn next(&mut self) -> Option<Self::Item> {
        if self.at == self.end {
            let ticks = self.next.take()?;
            let room = if self.alone > 0 { ROW_NUMBERS } else { PIECE };
            let count = match self.zone.list(ticks, self.edition, &mut self.rows[..room]) {
                Ok(count) => count,
                Err(error) => return Some(Err(error)),
            };
            (self.at, self.end, self.alone) = (0, count, self.alone.saturating_sub(1));
            let end = self.rows[count * ROW_NUMBERS - 1];
            self.next = (end < i64::MAX).then_some(end);
        }
        let mut row = [0; ROW_NUMBERS];
        row.copy_from_slice(&self.rows[self.at * ROW_NUMBERS..][..ROW_NUMBERS]);
        self.at += 1;
        Some(Ok(answer(self.zone.file, row)))
    }
}

/// Once there is no more there never is.
impl core::iter::FusedIterator for ZoneIntervals<'_> {}
