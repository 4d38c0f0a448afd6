//! Closing up the pool: only the strings that are mentioned, the most used first.

use crate::codes::{count_length, Cursor};
use crate::fields::{Field, Fields, LAST_END};
use crate::locations::check_locations;
use crate::number::{CUT_SHORT, TOO_LARGE, UNREAD_FIELD};
use crate::pool::{Pool, MOST_STRINGS};
use crate::whole::{walk, VisitFields, ZoneData};
use crate::write::{Write, TOO_SHORT};
use crate::zone::{read_mention, read_rest, Visit};
use crate::Refusal;

/// Every zone has an ID of its own, so there are no more zones than strings; besides them there are 0, 2, 3, 6 and 7.
const MOST_FIELDS: usize = MOST_STRINGS + 5;

/// The new number of each string, by its old one.
type Numbers = [u16; MOST_STRINGS];

/// Checks a file, closes up its pool, writes the file to the front of `out`, and gives its length.
pub fn close_pool(file: &[u8], out: &mut [u8]) -> Result<usize, Refusal> {
    let mut found = Mentions { uses: [0; MOST_STRINGS], unread: None };
    let pool = walk(file, &mut found)?.pool;
    if let Some(place) = found.unread {
        return Err(Refusal { number: UNREAD_FIELD, place });
    }
    if found.is_closed(pool.count()) && plain_length(file)? == file.len() {
        out.get_mut(..file.len()).ok_or(TOO_SHORT)?.copy_from_slice(file);
        return Ok(file.len());
    }
    // Uses and number in one key: the most used first, ties by number.
    let mut keys = [0; MOST_STRINGS];
    let mut count = 0;
    for (number, &uses) in (0..).zip(&found.uses).filter(|(_, &uses)| uses > 0) {
        keys[count] = u64::from(u32::MAX - uses) << 32 | number;
        count += 1;
    }
    let keys = &mut keys[..count];
    keys.sort_unstable();
    let closed = Closed::new(pool, keys);
    // The length of each field's data, and whether its numbers keep their lengths: nothing is written where there is no room.
    let mut lengths = [(0, false); MOST_FIELDS];
    let mut total = 4;
    for (entry, field) in lengths.iter_mut().zip(Fields::new(file, CUT_SHORT)?.all()) {
        let (id, field) = field?;
        *entry = closed.length(id, field.data).map_err(|number| field.refuse(number))?;
        total += 1 + count_length(entry.0 as u32) + entry.0;
    }
    if total > LAST_END {
        return Err(Refusal { number: TOO_LARGE, place: 0 });
    }
    let mut write = Write { out: out.get_mut(..total).ok_or(TOO_SHORT)?, at: 0 };
    write.bytes(&file[..4]);
    for (&(length, same), field) in lengths.iter().zip(Fields::new(file, CUT_SHORT)?.all()) {
        let (id, field) = field?;
        write.byte(id);
        write.count(length as u32);
        closed.write(id, field.data, same, &mut write).map_err(|number| field.refuse(number))?;
    }
    Ok(total)
}

/// The length of a file with the same data, and sizes in the shortest form.
fn plain_length(file: &[u8]) -> Result<usize, Refusal> {
    let mut length = 4;
    for field in Fields::new(file, CUT_SHORT)?.all() {
        let (_, field) = field?;
        length += 1 + count_length(field.data.len() as u32) + field.data.len();
    }
    Ok(length)
}

/// A pool before and after.
struct Closed<'a> {
    pool: Pool<'a>,
    /// The old numbers of the strings that stay, in their new order: the low half of each.
    keys: &'a [u64],
    numbers: Numbers,
    /// Whether a number changes, and whether the length of one does.
    moved: bool,
    resized: bool,
}

impl<'a> Closed<'a> {
    fn new(pool: Pool<'a>, keys: &'a [u64]) -> Closed<'a> {
        let mut closed = Closed { pool, keys, numbers: [0; MOST_STRINGS], moved: false, resized: false };
        for (new, &key) in (0..).zip(keys) {
            let old = key as u32;
            closed.numbers[old as usize] = new;
            closed.moved |= u32::from(new) != old;
            closed.resized |= count_length(new.into()) != count_length(old);
        }
        closed
    }

    fn strings(&self) -> impl Iterator<Item = &'a [u8]> + '_ {
        self.keys.iter().map(|&key| self.pool.string(key as u32))
    }

    /// The length of a field's closed data, and whether each of its numbers keeps its length.
    fn length(&self, id: u8, data: &[u8]) -> Result<(usize, bool), u8> {
        if id == 0 {
            let strings = self.strings().map(|string| count_length(string.len() as u32) + string.len());
            return Ok((count_length(self.keys.len() as u32) + strings.sum::<usize>(), false));
        }
        if !self.resized {
            return Ok((data.len(), true));
        }
        let mut sizes = Sizes { numbers: &self.numbers, length: data.len(), same: true };
        mentions(id, data, self.pool.count(), &mut sizes)?;
        Ok((sizes.length, sizes.same))
    }

    /// Writes a field's closed data.
    fn write(&self, id: u8, data: &[u8], same: bool, write: &mut Write) -> Result<(), u8> {
        if id == 0 {
            write.count(self.keys.len() as u32);
            for string in self.strings() {
                write.count(string.len() as u32);
                write.bytes(string);
            }
        } else if same {
            let at = write.at;
            write.bytes(data);
            if self.moved {
                let copy = &mut write.out[at..write.at];
                mentions(id, data, self.pool.count(), &mut Patch { numbers: &self.numbers, copy })?;
            }
        } else {
            let mut renumber = Renumber { numbers: &self.numbers, write, data, copied: 0 };
            mentions(id, data, self.pool.count(), &mut renumber)?;
            let copied = renumber.copied;
            write.bytes(&data[copied..]);
        }
        Ok(())
    }
}

/// Shows the pool numbers in the data of a field that is checked.
fn mentions(id: u8, data: &[u8], pool_count: u32, visit: &mut impl Visit) -> Result<(), u8> {
    let mut cursor = Cursor::new(data);
    match id {
        1 => {
            let id = read_mention(&mut cursor, pool_count, visit)?;
            read_rest(cursor, id, pool_count, visit)
        }
        3 => {
            for _ in 0..cursor.count()? {
                read_mention(&mut cursor, pool_count, visit)?;
                read_mention(&mut cursor, pool_count, visit)?;
            }
            Ok(())
        }
        6 | 7 => check_locations(data, id == 7, pool_count, visit),
        _ => Ok(()),
    }
}

/// How often each string is mentioned, and the place of the first field that isn't read.
struct Mentions {
    uses: [u32; MOST_STRINGS],
    unread: Option<usize>,
}

impl Mentions {
    /// Whether all of so many strings are used, and in the order of their uses.
    fn is_closed(&self, strings: u32) -> bool {
        let used = self.uses.iter().filter(|&&uses| uses > 0).count();
        used == strings as usize && self.uses.windows(2).fold(true, |falls, pair| falls & (pair[0] >= pair[1]))
    }
}

impl Visit for Mentions {
    #[inline]
    fn mention(&mut self, number: u32, _before: usize, _after: usize) {
        self.uses[number as usize] += 1;
    }
}

impl<'a> VisitFields<'a> for Mentions {
    #[inline]
    fn field(&mut self, id: u8, field: &Field<'a>, _zone: Option<ZoneData<'a>>) {
        if matches!(id, 4 | 5 | 8..) {
            self.unread.get_or_insert(field.place);
        }
    }
}

/// The length of data with new numbers, and whether each number keeps its length.
struct Sizes<'a> {
    numbers: &'a Numbers,
    length: usize,
    same: bool,
}

impl Visit for Sizes<'_> {
    #[inline]
    fn mention(&mut self, number: u32, before: usize, after: usize) {
        let (old, new) = (before - after, count_length(self.numbers[number as usize].into()));
        self.length = self.length + new - old;
        self.same &= old == new;
    }
}

/// Puts new numbers in the place of old ones that are as long, in a copy of the data.
struct Patch<'a> {
    numbers: &'a Numbers,
    copy: &'a mut [u8],
}

impl Visit for Patch<'_> {
    #[inline]
    fn mention(&mut self, number: u32, before: usize, _after: usize) {
        let at = self.copy.len() - before;
        Write { out: self.copy, at }.count(self.numbers[number as usize].into());
    }
}

/// Writes data with new numbers, up to and with the last one.
struct Renumber<'a, 'b> {
    numbers: &'a Numbers,
    write: &'a mut Write<'b>,
    data: &'a [u8],
    copied: usize,
}

impl Visit for Renumber<'_, '_> {
    #[inline]
    fn mention(&mut self, number: u32, before: usize, after: usize) {
        self.write.bytes(&self.data[self.copied..self.data.len() - before]);
        self.write.count(self.numbers[number as usize].into());
        self.copied = self.data.len() - after;
    }
}
