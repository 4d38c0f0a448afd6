//! The replay of a phone's trace.

use crate::codes::Cursor;
use crate::fields::Fields;
use crate::ids::Ids;
use crate::number::{BAD_TRACE, CUT_SHORT};
use crate::pool::Pool;
use crate::zone::{read_rest, Find};
use crate::{Refusal, FIRST, LAST};

const HEADER: usize = 16;
const RECORD: usize = 20;

const LEAVES: Refusal = Refusal { number: BAD_TRACE, place: 0 };

/// The number, from 0, of the first record whose shown offset isn't the file's or whose question the file refuses.
pub fn replay(file: &[u8], trace: &[u8]) -> Result<Option<u32>, Refusal> {
    let header = trace.first_chunk::<HEADER>().ok_or(LEAVES)?;
    let (count, start) = (four(header, 0), four(header, 4));
    let records = part(trace, start, u64::from(count) * RECORD as u64).ok_or(LEAVES)?.as_chunks::<RECORD>().0;
    let names = part(trace, four(header, 12), four(header, 8).into()).ok_or(LEAVES)?;
    let name = |record: &[u8; RECORD]| part(names, four(record, 8), four(record, 12).into());
    // All names are judged before a question is asked.
    if !records.iter().all(|record| name(record).is_some()) {
        return Err(LEAVES);
    }
    if records.is_empty() {
        return Ok(None);
    }
    let Some(mut zones) = Zones::open(file) else {
        return Ok(Some(0));
    };
    let mut last: Option<Shown> = None;
    for (number, record) in (0..).zip(records) {
        let instant = i64::from(four(record, 0) as i32) << 32 | i64::from(four(record, 4));
        let name = name(record).ok_or(LEAVES)?;
        // Often it is the interval of the record before.
        if last.as_ref().is_none_or(|last| !last.holds(name, instant)) {
            last = zones.ask(name, instant);
        }
        if last.as_ref().is_none_or(|last| last.wall != four(record, 16) as i32) {
            return Ok(Some(number));
        }
    }
    Ok(None)
}

/// Four bytes, high first.
#[inline]
fn four(bytes: &[u8], at: usize) -> u32 {
    bytes[at..].first_chunk().map_or(0, |four| u32::from_be_bytes(*four))
}

/// A part that lies in some bytes.
#[inline]
fn part(bytes: &[u8], start: u32, length: u64) -> Option<&[u8]> {
    bytes.get(start as usize..)?.get(..usize::try_from(length).ok()?)
}

/// The offset of a zone from one instant to another.
struct Shown<'a> {
    name: &'a [u8],
    start: i64,
    end: i64,
    wall: i32,
}

impl Shown<'_> {
    #[inline]
    fn holds(&self, name: &[u8], instant: i64) -> bool {
        (self.start..self.end).contains(&instant) && (FIRST..=LAST).contains(&instant) && self.name == name
    }
}

/// The zones of a file, read and checked as far as questions needed them.
struct Zones<'a> {
    pool: Pool<'a>,
    /// None behind the last zone that a question can reach.
    fields: Option<Fields<'a>>,
    ids: Ids,
    /// By the pool number of its ID, the data of each zone that was read.
    data: Vec<&'a [u8]>,
}

impl<'a> Zones<'a> {
    /// None where every question is refused.
    fn open(file: &'a [u8]) -> Option<Zones<'a>> {
        let mut fields = Fields::new(file, CUT_SHORT).ok()?;
        let pool = Pool::read(fields.first().ok()??.data).ok()?;
        let count = pool.count();
        Some(Zones { pool, fields: Some(fields), ids: Ids::new(count), data: vec![&[]; count as usize] })
    }

    /// What the zone shows at an instant; none where the question is refused.
    fn ask<'n>(&mut self, name: &'n [u8], instant: i64) -> Option<Shown<'n>> {
        if !(FIRST..=LAST).contains(&instant) {
            return None;
        }
        let data = match self.ids.find(name, &self.pool) {
            Some(number) => self.data[number as usize],
            None => self.read_to(name)?,
        };
        let mut find = Find::new(instant, false);
        let mut cursor = Cursor::new(data);
        let id = cursor.pool_number(self.pool.count()).ok()?;
        read_rest(cursor, id, self.pool.count(), &mut find).ok()?;
        let (held, end) = find.held();
        Some(Shown { name, start: held.start, end, wall: held.wall })
    }

    /// Reads on to the zone of an ID.
    fn read_to(&mut self, name: &[u8]) -> Option<&'a [u8]> {
        loop {
            let Some((number, data)) = self.fields.as_mut().and_then(|fields| next_zone(fields, self.pool.count()))
            else {
                self.fields = None;
                return None;
            };
            // Of two zones of one ID the first is asked.
            if self.ids.insert(number, &self.pool) {
                self.data[number as usize] = data;
                if self.pool.string(number) == name {
                    return Some(data);
                }
            }
        }
    }
}

/// The next zone, checked: the pool number of its ID, and its data.
fn next_zone<'a>(fields: &mut Fields<'a>, pool_count: u32) -> Option<(u32, &'a [u8])> {
    let id = fields.id().ok()?.filter(|&id| id == 1)?;
    let data = fields.field(id).ok()?.data;
    let mut cursor = Cursor::new(data);
    let number = cursor.pool_number(pool_count).ok()?;
    read_rest(cursor, number, pool_count, &mut ()).ok()?;
    Some((number, data))
}
