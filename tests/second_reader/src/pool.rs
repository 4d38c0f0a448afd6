//! Field 0, the string pool.

use crate::data::Data;
use crate::number::Number;
use std::ops::Range;

/// "8,192 pool strings"
pub const MOST_STRINGS: usize = 8192;

/// The pool's strings, each as the part of the file's bytes that holds it.
pub type Pool = Vec<Range<usize>>;

/// "Field 0 is a count and that many length-and-bytes strings. It may be empty." A count must be there: the pool may
/// be empty, its data not (reading 2). `place` is where the field's data starts in the file.
pub fn read_pool(bytes: &[u8], place: usize) -> Result<Pool, Number> {
    let mut data = Data::new(bytes);
    let count = data.count()?;
    if count > MOST_STRINGS {
        return Err(Number::TooLarge);
    }
    let mut pool = Pool::new();
    for _ in 0..count {
        let part = data.text()?;
        pool.push(place + part.start..place + part.end);
    }
    data.end()?;
    Ok(pool)
}
