//! The IDs of the zones seen so far.

use crate::pool::Pool;

/// The pool numbers of the IDs seen, in the order of the IDs' bytes.
pub struct Ids {
    numbers: Vec<u16>,
}

impl Ids {
    /// No IDs yet, out of a pool of so many strings.
    pub fn new(count: u32) -> Ids {
        Ids { numbers: Vec::with_capacity(count as usize) }
    }

    /// Adds the string of a pool number, and says whether it wasn't there yet. Most files have their IDs in order, so the last is
    /// looked at first.
    #[inline]
    pub fn insert(&mut self, number: u32, pool: &Pool) -> bool {
        let id = pool.string(number);
        // A pool has at most 8,192 strings.
        let short = number as u16;
        if self.numbers.last().is_none_or(|&last| pool.string(u32::from(last)) < id) {
            self.numbers.push(short);
            return true;
        }
        match self.search(id, pool) {
            Ok(_) => false,
            Err(place) => {
                self.numbers.insert(place, short);
                true
            }
        }
    }

    /// The pool number of the ID with these bytes.
    pub fn find(&self, id: &[u8], pool: &Pool) -> Option<u32> {
        self.search(id, pool).ok().map(|place| u32::from(self.numbers[place]))
    }

    /// Its place, or where it would stand.
    fn search(&self, id: &[u8], pool: &Pool) -> Result<usize, usize> {
        self.numbers.binary_search_by(|&other| pool.string(u32::from(other)).cmp(id))
    }
}
