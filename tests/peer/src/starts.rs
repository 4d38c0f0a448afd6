//! A table of a zone's interval starts, and the lookup in a table by halving.

use crate::codes::Cursor;
use crate::number::NOT_FOUND;
use crate::write::TOO_SHORT;
use crate::zone::{read_rest, Interval, Visit};
use crate::{find_zone, Refusal};
use std::hint::select_unpredictable;

/// The starts of the zone's listed intervals, put in `table`; how many there are.
pub fn interval_starts(file: &[u8], id: &[u8], table: &mut [i64]) -> Result<usize, Refusal> {
    let mut count = Count(0);
    let found = find_zone(file, id, false, &mut count)?;
    let room = table.get_mut(..count.0).ok_or(TOO_SHORT)?;
    let mut fill = Fill { entries: room.iter_mut() };
    // The zone was read to its end before.
    let (mut cursor, pool_count) = (Cursor::new(found.zone.data), found.pool.count());
    let read = cursor.pool_number(pool_count).and_then(|id| read_rest(cursor, id, pool_count, &mut fill));
    debug_assert_eq!(read, Ok(()));
    Ok(count.0)
}

/// How many intervals are listed.
struct Count(usize);

impl Visit for Count {
    #[inline]
    fn interval(&mut self, _interval: Interval) {
        self.0 += 1;
    }

    #[inline]
    fn run(&mut self, count: u32, _last: Interval) {
        self.0 += count as usize;
    }
}

/// Puts each start in its entry.
struct Fill<'a> {
    entries: std::slice::IterMut<'a, i64>,
}

impl Fill<'_> {
    #[inline]
    fn put(&mut self, start: i64) {
        if let Some(entry) = self.entries.next() {
            *entry = start;
        }
    }
}

impl Visit for Fill<'_> {
    /// The last one, an end, finds no entry left.
    #[inline]
    fn transition(&mut self, value: i64, _previous: i64, _before: usize, _after: usize) {
        self.put(value);
    }

    #[inline]
    fn fixed(&mut self, _id: u32, interval: Interval) {
        self.put(interval.start);
    }
}

/// What halving leaves of a table.
#[derive(Clone, Copy, Debug, PartialEq, Eq)]
pub struct Found {
    /// The number of the entry left, from 0.
    pub position: usize,
    /// How many entries were looked at.
    pub looks: usize,
}

/// The entry of a table that halving leaves for an instant.
pub fn find_start(table: &[i64], instant: i64) -> Result<Found, Refusal> {
    if table.is_empty() {
        return Err(Refusal { number: NOT_FOUND, place: 0 });
    }
    let (mut low, mut high) = (0, table.len());
    // The length tells how many looks there are, but for the last: a branch on how many entries are left would be guessed wrong every
    // other time, and so would one on an entry.
    let looks = table.len().ilog2();
    for _ in 0..looks {
        let middle = (low + high) / 2;
        let kept = table[middle] <= instant;
        low = select_unpredictable(kept, middle, low);
        high = select_unpredictable(kept, high, middle);
    }
    // Two entries are left, or one.
    let middle = (low + high) / 2;
    let looks = looks as usize + (middle - low);
    Ok(Found { position: select_unpredictable(table[middle] <= instant, middle, low), looks })
}
