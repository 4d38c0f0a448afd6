//! A zone found once, as a plain value over bytes that may be others by then: each question checks the zone's bytes, and walks over the
//! pool's strings to the name.

use crate::codes::Cursor;
use crate::fields::LAST_END;
use crate::local::{Count, LocalInstants};
use crate::number::{INSTANT_RANGE, NO_INSTANT};
use crate::pool::MOST_STRINGS;
use crate::zone::{read_rest, Find, Visit};
use crate::{find_zone, Answer, Refusal, FIRST, LAST};

/// Where a zone was found in a file. Any numbers are safe with any bytes.
#[derive(Clone, Copy, Debug, PartialEq, Eq)]
pub struct Places {
    /// Where the data of field 0 start ..
    pub pool: usize,
    /// .. and end.
    pub past: usize,
    /// Where the zone's data start ..
    pub start: usize,
    /// .. and end.
    pub end: usize,
    /// The place that is told with a fault of the zone, its ID byte.
    pub place: usize,
}

impl Places {
    /// Finds the zone `id`.
    pub fn find(file: &[u8], id: &[u8]) -> Result<Places, Refusal> {
        let found = find_zone(file, id, false, &mut ())?;
        let (pool, zone) = (found.field, found.zone);
        let start = zone.end - zone.data.len();
        Ok(Places { pool: pool.end - pool.data.len(), past: pool.end, start, end: zone.end, place: zone.place })
    }

    /// The interval that holds `ticks`: on the bytes that the zone was found in, as [`ask`](crate::ask) gives it.
    pub fn ask<'a>(&self, file: &'a [u8], ticks: i64, first_edition: bool) -> Result<Answer<'a>, Refusal> {
        if !(FIRST..=LAST).contains(&ticks) {
            return Err(Refusal { number: INSTANT_RANGE, place: 0 });
        }
        let mut find = Find::new(ticks, first_edition);
        let strings = self.strings(file);
        self.read(file, &strings, &mut find)?;
        let (held, end) = find.held();
        Ok(held.answer(end, strings.string(held.name)))
    }

    /// The instants that read as the local time `local`: on the bytes that the zone was found in, as
    /// [`map_local`](crate::map_local) gives them.
    pub fn map_local(&self, file: &[u8], local: i64) -> Result<LocalInstants, Refusal> {
        let mut found = Count::new(local);
        self.read(file, &self.strings(file), &mut found)?;
        found.instants().ok_or(Refusal { number: NO_INSTANT, place: 0 })
    }

    /// The pool's strings; none where it doesn't lie in the file.
    pub(crate) fn strings<'a>(&self, file: &'a [u8]) -> Strings<'a> {
        let data = part(file, self.pool, self.past);
        let mut cursor = Cursor::new(data);
        let count = cursor.count().unwrap_or(0);
        let bytes = &data[data.len() - cursor.left()..];
        Strings { count: if count as usize <= MOST_STRINGS { count } else { 0 }, bytes }
    }

    /// The zone's data; none where they don't lie in the file.
    pub(crate) fn data<'a>(&self, file: &'a [u8]) -> &'a [u8] {
        part(file, self.start, self.end)
    }

    /// Checks the zone, and shows it to `visit`.
    pub(crate) fn read(&self, file: &[u8], strings: &Strings, visit: &mut impl Visit) -> Result<(), Refusal> {
        let mut cursor = Cursor::new(self.data(file));
        let read = cursor.pool_number(strings.count).and_then(|id| read_rest(cursor, id, strings.count, visit));
        read.map_err(|number| Refusal { number, place: if self.place <= LAST_END { self.place } else { 0 } })
    }
}

#[inline]
fn part(file: &[u8], start: usize, end: usize) -> &[u8] {
    file.get(start..end).unwrap_or(&[])
}

/// The strings of a pool that is not checked.
#[derive(Clone, Copy)]
pub(crate) struct Strings<'a> {
    pub count: u32,
    bytes: &'a [u8],
}

impl<'a> Strings<'a> {
    /// The string with a number; no bytes where the pool ends before it.
    fn string(&self, number: u32) -> &'a [u8] {
        behind(self.bytes, number).and_then(front).map_or(&[], |(string, _)| string)
    }
}

/// What stands behind so many strings.
#[inline]
fn behind(mut bytes: &[u8], count: u32) -> Option<&[u8]> {
    let mut left = count;
    while left > 0 {
        // Four strings whose lengths have a byte each take at most 1,024 bytes, so they need no tests but of these bytes.
        if let (Some(block), 4..) = (bytes.first_chunk::<1024>(), left) {
            let second = 1 + usize::from(block[0]);
            let third = second + 1 + usize::from(block[second]);
            let fourth = third + 1 + usize::from(block[third]);
            if [block[0], block[second], block[third], block[fourth]].is_ascii() {
                bytes = &bytes[fourth + 1 + usize::from(block[fourth])..];
                left -= 4;
                continue;
            }
        }
        bytes = front(bytes)?.1;
        left -= 1;
    }
    Some(bytes)
}

/// The string at the front, and what stands behind it.
#[inline]
fn front(bytes: &[u8]) -> Option<(&[u8], &[u8])> {
    match *bytes {
        [length @ 0..0x80, ref rest @ ..] => rest.split_at_checked(length.into()),
        _ => {
            let mut cursor = Cursor::new(bytes);
            let length = cursor.count().ok()?;
            bytes[bytes.len() - cursor.left()..].split_at_checked(length as usize)
        }
    }
}

/// Where a pool's strings lie in a file, those up to the last that was asked for.
pub(crate) struct Parts<'a> {
    rest: Option<&'a [u8]>,
    /// Where `rest` ends.
    past: usize,
    /// The place and the length of each.
    parts: Vec<[i64; 2]>,
    /// Those of a string that isn't there.
    none: [i64; 2],
}

impl<'a> Parts<'a> {
    pub(crate) fn new(strings: &Strings<'a>, places: &Places) -> Parts<'a> {
        let none = [places.pool as i64, 0];
        Parts { rest: Some(strings.bytes), past: places.past, parts: Vec::new(), none }
    }

    #[inline]
    pub(crate) fn part(&mut self, number: u32) -> [i64; 2] {
        while self.parts.len() <= number as usize {
            let Some((string, rest)) = self.rest.and_then(front) else {
                self.rest = None;
                return self.none;
            };
            self.parts.push([self.past - rest.len() - string.len(), string.len()].map(|number| number as i64));
            self.rest = Some(rest);
        }
        self.parts[number as usize]
    }
}
