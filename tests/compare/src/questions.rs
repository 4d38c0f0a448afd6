//! Questions: by ID, marked both ways and plain, and by name, marked both ways, under both editions; by the C functions and by
//! the wrapper.

use crate::lent;
use crate::tally::{Difference, Outcome, Tally};
use crate::whole::{error_pair, pair};
use nzd::{ffi, Bound};
use second_reader::generate::Prng;
use second_reader::{Answer, Edition, Mark, Transition};
use std::fmt;

/// A zone ID or a name, and an instant.
pub type Question = (Vec<u8>, i64);

/// How a question is asked.
#[derive(Clone, Copy, Debug)]
pub enum Way {
    More,
    All,
    Plain,
    NamedMore,
    NamedAll,
}

/// Both editions, ours and the second reader's.
pub const EDITIONS: [(nzd::Edition, Edition); 2] =
    [(nzd::Edition::One, Edition::One), (nzd::Edition::Two, Edition::Two)];

struct Asked<'a> {
    id: &'a [u8],
    ticks: i64,
    way: Way,
    edition: nzd::Edition,
}

impl fmt::Display for Asked<'_> {
    fn fmt(&self, f: &mut fmt::Formatter<'_>) -> fmt::Result {
        let id = self.id.escape_ascii().to_string();
        write!(f, "{id:?} at {}, {:?}, edition {:?}", self.ticks, self.way, self.edition)
    }
}

/// Compares a question asked in each way, under both editions.
pub fn ask(tally: &mut Tally, file: &[u8], id: &[u8], ticks: i64) -> Result<(), Difference> {
    for (edition, their_edition) in EDITIONS {
        for way in [Way::More, Way::All, Way::Plain, Way::NamedMore, Way::NamedAll] {
            let asked = Asked { id, ticks, way, edition };
            let theirs = match way {
                Way::More => second_reader::ask(file, id, ticks, Mark::MoreMayCome, their_edition),
                Way::All => second_reader::ask(file, id, ticks, Mark::ThisIsAll, their_edition),
                Way::Plain => second_reader::ask_plain(file, id, ticks, their_edition),
                Way::NamedMore => second_reader::ask_named(file, id, ticks, Mark::MoreMayCome, their_edition),
                Way::NamedAll => second_reader::ask_named(file, id, ticks, Mark::ThisIsAll, their_edition),
            }
            .map(|answer| numbers_of(&answer))
            .map_err(pair);
            let first = edition == nzd::Edition::One;
            let ours = lent::numbers(file, |out| match way {
                Way::More => ffi::ask(file, id, ticks, true, first, out),
                Way::All => ffi::ask(file, id, ticks, false, first, out),
                Way::Plain => ffi::ask_plain(file, id, ticks, first, out),
                Way::NamedMore => ffi::ask_named(file, id, ticks, true, first, out),
                Way::NamedAll => ffi::ask_named(file, id, ticks, false, first, out),
            })?;
            tally.same(&asked, file, ours, theirs)?;
            let wrapped = match way {
                Way::More => nzd::ask(file, id, ticks, nzd::Mark::MoreMayCome, edition),
                Way::All => nzd::ask(file, id, ticks, nzd::Mark::ThisIsAll, edition),
                Way::Plain => nzd::ask_plain(file, id, ticks, edition),
                Way::NamedMore => nzd::ask_named(file, id, ticks, nzd::Mark::MoreMayCome, edition),
                Way::NamedAll => nzd::ask_named(file, id, ticks, nzd::Mark::ThisIsAll, edition),
            };
            tally.same(&asked, file, wrapped_numbers(file, wrapped), theirs)?;
        }
    }
    Ok(())
}

pub fn numbers_of(answer: &Answer) -> [i64; 7] {
    let Answer { wall, savings, standard, name, start, end } = answer;
    let bound = |bound: &Transition| match bound {
        Transition::StartOfTime => i64::MIN,
        Transition::Finite(ticks) => *ticks,
        Transition::EndOfTime => i64::MAX,
    };
    let [wall, savings, standard] = [wall, savings, standard].map(|&ms| i64::from(ms));
    [wall, savings, standard, name.start as i64, name.len() as i64, bound(start), bound(end)]
}

pub fn wrapped_numbers(file: &[u8], answer: Result<nzd::Answer<'_>, nzd::Error>) -> Outcome<[i64; 7]> {
    let answer = answer.map_err(error_pair)?;
    let nzd::Answer { wall_offset_ms, savings_ms, standard_offset_ms, start, end, .. } = answer;
    let bound = |bound: Bound| match bound {
        Bound::StartOfTime => i64::MIN,
        Bound::At(ticks) => ticks,
        Bound::EndOfTime => i64::MAX,
    };
    // The name is a part of the file's own bytes, and text.
    let name = answer.name_str();
    assert_eq!(name.as_bytes(), answer.name);
    let place = (name.as_ptr() as usize).wrapping_sub(file.as_ptr() as usize);
    let (place, length) = (place as i64, name.len() as i64);
    Ok([wall_offset_ms, savings_ms, standard_offset_ms, place, length, bound(start), bound(end)])
}

/// Asks every prefix of a file, or one in `step`, alone and with random bytes added.
pub fn prefixes(
    tally: &mut Tally,
    file: &[u8],
    asked: &[Question],
    step: usize,
    prng: &mut Prng,
) -> Result<(), Difference> {
    for length in (0..=file.len()).step_by(step) {
        let part = &file[..length];
        for (id, ticks) in asked {
            ask(tally, part, id, *ticks)?;
        }
        let count = 1 + prng.below(6);
        let longer = [part, &prng.bytes(count)].concat();
        let (id, ticks) = prng.pick(asked);
        ask(tally, &longer, id, *ticks)?;
    }
    Ok(())
}

/// IDs that a file has not, or may have not: near ones, and any bytes.
pub fn other_ids(ids: &[&[u8]], prng: &mut Prng) -> Vec<Vec<u8>> {
    let mut others = vec![Vec::new(), b"No/Such_Zone".to_vec(), vec![0xff], vec![b'A'; 1024], vec![b'A'; 5000]];
    let count = prng.below(6);
    others.push(prng.bytes(count));
    if !ids.is_empty() {
        let id = *prng.pick(ids);
        others.push([id, b"x"].concat());
        others.push(id[..id.len().saturating_sub(1)].to_vec());
        if !id.is_empty() {
            let mut changed = id.to_vec();
            changed[prng.below(id.len())] ^= 1 << prng.below(8);
            others.push(changed);
        }
    }
    others
}
