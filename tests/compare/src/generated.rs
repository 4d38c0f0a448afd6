//! Generated files, well formed and damaged.

use crate::cases::padded;
use crate::local::{map, times};
use crate::locations;
use crate::older;
use crate::questions::{ask, other_ids, prefixes, Question};
use crate::receiver::pieces;
use crate::tally::{Difference, Tally};
use crate::tools;
use crate::walks::walk;
use crate::whole::{check, whole};
use second_reader::generate::{
    damaged, instants, names, plan, random_content, random_entries, Damage, FileContent, FilePlan, Forms, Prng, Size,
};
use second_reader::transition::{FIRST, LAST};

/// Every prefix is taken of files up to this length.
const EVERY_PREFIX: usize = 1500;
/// How many instants of a zone are asked.
const MOST_INSTANTS: usize = 60;
/// How many local times of a zone are asked, and of one with many intervals, which takes the second reader long.
const MOST_LOCAL_TIMES: usize = 60;
const FEW_LOCAL_TIMES: usize = 12;
const MANY_OFFSETS: usize = 200;

/// How many intervals of a zone are walked, but for one round in so many, whose walks go from first to last.
const MOST_INTERVALS: usize = 40;
const WHOLE_WALKS: u64 = 50;

/// One well-formed file, two damaged ones of it, and a short one of any bytes.
pub fn round(tally: &mut Tally, seed: u64, number: u64) -> Result<(), Difference> {
    let mut prng = Prng::of_case(seed, number);
    // Files of the largest sizes take long: one round in four may have one.
    let size = if number.is_multiple_of(4) { Size::Any } else { Size::Small };
    let content = random_content(&mut prng, size);
    let good = plan(&content, &mut Forms::Any(&mut prng));
    let kind = *prng.pick(&Damage::ALL);
    let bad = damaged(&good, kind, &mut prng);
    let twice = damaged_twice(&good, &mut prng);
    let files = [good.bytes(), bad, twice, any_bytes(&mut prng)];
    for file in &files {
        whole(tally, file)?;
        locations::all(tally, file)?;
        locations::any_view(file, &mut prng)?;
        let asked = questions(&content, &mut prng);
        for (id, ticks) in &asked {
            ask(tally, file, id, *ticks)?;
        }
        let few: Vec<Question> = (0..6).map(|_| prng.pick(&asked).clone()).collect();
        older::dictionaries(tally, file, &random_entries(&content, &mut prng), &few, &mut prng)?;
        let locals = local_times(&content, &asked, &mut prng);
        for (id, local) in &locals {
            map(tally, file, id, *local)?;
        }
        pieces(tally, file, &asked, &locals, &mut prng)?;
        if file.len() <= EVERY_PREFIX {
            let few: Vec<Question> = (0..3).map(|_| prng.pick(&asked).clone()).collect();
            prefixes(tally, file, &few, 1, &mut prng)?;
            let (id, local) = prng.pick(&locals).clone();
            for length in 0..file.len() {
                check(tally, &file[..length])?;
                locations::some(tally, &file[..length], &mut prng)?;
                map(tally, &file[..length], &id, local)?;
            }
        }
    }
    // The same with sizes of any length: answers and preferred file stay.
    if let Some(file) = padded(&good.bytes(), || prng.below(6)) {
        whole(tally, &file)?;
        if let (Ok(short), Ok(long)) =
            (second_reader::rewrite::preferred(&good.bytes()), second_reader::rewrite::preferred(&file))
        {
            assert_eq!(short, long, "the preferred file of a padded one");
        }
        let asked = questions(&content, &mut prng);
        let few: Vec<Question> = (0..3).map(|_| prng.pick(&asked).clone()).collect();
        for (id, ticks) in &few {
            ask(tally, &file, id, *ticks)?;
        }
        if file.len() <= EVERY_PREFIX {
            prefixes(tally, &file, &few, 1, &mut prng)?;
        }
    }
    // A preferred file gives itself.
    if let Ok(preferred) = second_reader::rewrite::preferred(&good.bytes()) {
        whole(tally, &preferred)?;
    }
    let all = number.is_multiple_of(WHOLE_WALKS);
    let asked = questions(&content, &mut prng);
    let locals = local_times(&content, &asked, &mut prng);
    let round = tools::Round { content: &content, files: &files, asked: &asked, locals: &locals, whole: all };
    tools::all(tally, &round, &mut prng)?;
    walks(tally, &content, &files[0], all, &mut prng)
}

/// The intervals of every zone, from the first or from some instant on.
fn walks(tally: &mut Tally, content: &FileContent, file: &[u8], all: bool, prng: &mut Prng) -> Result<(), Difference> {
    let most = if all { usize::MAX } else { MOST_INTERVALS };
    for zone in &content.zones {
        let some = instants(zone, prng);
        let first = if all || prng.one_in(2) { FIRST } else { *prng.pick(&some) };
        walk(tally, file, content.id(zone), first, most, prng)?;
    }
    Ok(())
}

/// Instants at and around every bound of the zones, and questions that are refused for another reason.
fn questions(content: &FileContent, prng: &mut Prng) -> Vec<Question> {
    let mut asked = Vec::new();
    for zone in &content.zones {
        let mut all = instants(zone, prng);
        while all.len() > MOST_INSTANTS {
            all.swap_remove(prng.below(all.len()));
        }
        asked.extend(all.into_iter().map(|ticks| (content.id(zone).to_vec(), ticks)));
    }
    let ids: Vec<&[u8]> = content.zones.iter().map(|zone| content.id(zone)).collect();
    for id in other_ids(&ids, prng).into_iter().chain(names(content, prng)) {
        let ticks = prng.range(FIRST, LAST);
        asked.push((id, ticks));
    }
    let id = ids.first().map_or(Vec::new(), |id| id.to_vec());
    for ticks in [FIRST - 1, LAST + 1, i64::MIN, i64::MAX, prng.next_u64() as i64] {
        asked.push((id.clone(), ticks));
    }
    asked
}

/// Local times of every zone, and some of other IDs.
fn local_times(content: &FileContent, asked: &[Question], prng: &mut Prng) -> Vec<Question> {
    let mut locals = Vec::new();
    for zone in &content.zones {
        let most = if zone.wall_offsets().len() < MANY_OFFSETS { MOST_LOCAL_TIMES } else { FEW_LOCAL_TIMES };
        locals.extend(times(zone, content.id(zone), most, prng));
    }
    locals.extend((0..4).map(|_| prng.pick(asked).clone()));
    locals
}

/// A file with two faults, of which the first in order counts: one, or a doubled zone, and a byte changed.
fn damaged_twice(good: &FilePlan, prng: &mut Prng) -> Vec<u8> {
    let kind = if prng.one_in(2) { Damage::DoubledZone } else { *prng.pick(&Damage::ALL) };
    let mut file = damaged(good, kind, prng);
    if !file.is_empty() {
        let place = prng.below(file.len());
        file[place] = prng.byte();
    }
    file
}

/// A good start and then any bytes.
fn any_bytes(prng: &mut Prng) -> Vec<u8> {
    let mut file = b"\0\0\0\0\x00\x03\x01\x01A\x01".to_vec();
    file.truncate(prng.below(11));
    let count = prng.below(40);
    file.extend(prng.bytes(count));
    file
}
