//! 02, Ask 5: field 3, the alias dictionary, and the lookup by alias.

use crate::data::Data;
use crate::number::Number;
use crate::pool::Pool;
use std::collections::BTreeSet;

/// "an alias may lead to an alias [...] eight steps at most"
pub const MOST_STEPS: usize = 8;

/// Pairs of pool numbers, alias and target, in file order.
pub type Aliases = Vec<(usize, usize)>;

/// "the alias dictionary (a count, then pairs of pool strings: alias, target)", of a file with these bytes and this pool.
///
/// "19 at the second of two equal keys": the same bytes (reading 5.9), judged as soon as the key is read (reading 5.8).
pub fn read_aliases(data: &[u8], file: &[u8], pool: &Pool) -> Result<Aliases, Number> {
    aliases_from(&mut Data::new(data), file, pool)
}

/// The same of a field's data.
pub(crate) fn aliases_from(data: &mut Data, file: &[u8], pool: &Pool) -> Result<Aliases, Number> {
    // No largest size: a count that the data can't hold is 9 where it ends (reading 5.10).
    let count = data.count()?;
    let mut keys = BTreeSet::new();
    let mut pairs = Aliases::new();
    for _ in 0..count {
        let key = data.pool_number(pool.len())?;
        if !keys.insert(&file[pool[key].clone()]) {
            return Err(Number::SecondKey);
        }
        let target = data.pool_number(pool.len())?;
        pairs.push((key, target));
    }
    data.end()?;
    Ok(pairs)
}

/// The zone that a name leads to over these pairs of key and target: at each step a zone ID comes first ("A canonical ID
/// wins over the same bytes as a key", on the way too, reading 5.12), then a key. "Number 18 if the eighth target is
/// again only a key, 12 where a target is unknown".
pub fn follow<T>(name: &[u8], zone: impl Fn(&[u8]) -> Option<T>, pairs: &[(&[u8], &[u8])]) -> Result<T, Number> {
    let mut name = name;
    let mut targets_taken = 0;
    loop {
        if let Some(found) = zone(name) {
            return Ok(found);
        }
        let Some((_, target)) = pairs.iter().find(|(key, _)| *key == name) else {
            return Err(Number::NotFound);
        };
        if targets_taken == MOST_STEPS {
            return Err(Number::TooManySteps);
        }
        name = target;
        targets_taken += 1;
    }
}
