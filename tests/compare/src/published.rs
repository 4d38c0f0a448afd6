//! Files that were made elsewhere: the realistic ones, and any that is named.

use crate::closing;
use crate::differences;
use crate::local::{map, times};
use crate::locations;
use crate::questions::{ask, other_ids, prefixes, Question};
use crate::starts::{find, table};
use crate::tally::{Difference, Tally};
use crate::traces;
use crate::walks::walk;
use crate::whole::{check, whole};
use second_reader::file::{read_file, Contents};
use second_reader::generate::{instants, plan, FileContent, Forms, Prng};
use second_reader::transition::{FIRST, LAST, TICKS_PER_DAY};
use second_reader::zone::{Rest, Zone};

/// About how many prefixes of a long file are taken.
const PREFIXES: usize = 600;
/// How many questions a closed file is asked, and a trace has.
const SOME: usize = 20;
/// All of time is compared of one zone in so many.
const WHOLE: usize = 50;
/// 40 years.
const YEARS: i64 = 40 * 366 * TICKS_PER_DAY;

/// Compares a file as a whole, its zones at and around every bound, and its prefixes.
pub fn file(tally: &mut Tally, file: &[u8], prng: &mut Prng) -> Result<(), Difference> {
    whole(tally, file)?;
    locations::all(tally, file)?;
    for _ in 0..1000 {
        locations::any_view(file, prng)?;
    }
    let mut asked: Vec<Question> = vec![(b"No/Such_Zone".to_vec(), 0), (b"UTC".to_vec(), LAST + 1)];
    // A file that is refused is good up to the field at fault.
    let good = match second_reader::check(file) {
        (0, _) => file,
        (_, place) => &file[..place as usize],
    };
    if let Ok(contents) = read_file(good) {
        let mut ids = Vec::new();
        let mut before = None;
        for (_, zone) in &contents.zones {
            let id = &file[contents.pool[zone.id].clone()];
            let mut all = instants(zone, prng);
            all.extend((0..8).map(|_| prng.range(FIRST, LAST)));
            // All instants are asked of the zone alone, which is quick, and a few of the whole file.
            let short = alone(file, &contents, zone);
            for ticks in &all {
                ask(tally, &short, id, *ticks)?;
            }
            walk(tally, &short, id, FIRST, usize::MAX, prng)?;
            walk(tally, file, id, *prng.pick(&all), 4, prng)?;
            let locals = times(zone, id, usize::MAX, prng);
            for (_, local) in &locals {
                map(tally, &short, id, *local)?;
            }
            map(tally, file, id, prng.pick(&locals).1)?;
            let starts = table(tally, &short, id)?;
            for ticks in &all {
                find(tally, &starts, *ticks)?;
            }
            // Beside the zone before it, under the same ID.
            let other = before.replace(zone).map(|other: &Zone| Zone { id: zone.id, rest: other.rest.clone() });
            if let Some(other) = other {
                let whole = prng.one_in(WHOLE);
                let windows = differences::windows([zone, &other], whole, prng);
                let other = alone(file, &contents, &other);
                for window in windows {
                    differences::compare(tally, [&short, &other], id, window)?;
                }
            }
            asked.extend((0..2).map(|_| (id.to_vec(), *prng.pick(&all))));
            ids.push(id);
        }
        for &(key, _) in contents.aliases.iter().flatten() {
            asked.push((file[contents.pool[key].clone()].to_vec(), prng.range(FIRST, LAST)));
        }
        asked.extend(other_ids(&ids, prng).into_iter().map(|id| (id, 0)));
    }
    for (id, ticks) in &asked {
        ask(tally, file, id, *ticks)?;
    }
    let some: Vec<Question> = (0..SOME).map(|_| prng.pick(&asked).clone()).collect();
    closing::stays(tally, file, &some, &some)?;
    traces::all(tally, file, &traces::trace_of(file, &some), prng)?;
    for (id, ticks) in &some {
        table(tally, file, id)?;
        differences::compare(tally, [file, file], id, (*ticks, LAST.min(ticks.saturating_add(YEARS))))?;
    }
    let step = 1 + file.len() / PREFIXES;
    let few: Vec<Question> = (0..2).map(|_| prng.pick(&asked).clone()).collect();
    prefixes(tally, file, &few, step, prng)?;
    let (id, local) = prng.pick(&asked);
    for length in (0..file.len()).step_by(step) {
        check(tally, &file[..length])?;
        map(tally, &file[..length], id, *local)?;
    }
    Ok(())
}

/// A file that has one zone of another, and the pool strings of that zone.
fn alone(file: &[u8], contents: &Contents, zone: &Zone) -> Vec<u8> {
    let mut pool = Vec::new();
    let mut number = |old: usize| {
        let string = file[contents.pool[old].clone()].to_vec();
        let known = pool.iter().position(|other| *other == string);
        known.unwrap_or_else(|| {
            pool.push(string);
            pool.len() - 1
        })
    };
    let mut zone = zone.clone();
    zone.id = number(zone.id);
    match &mut zone.rest {
        Rest::Fixed { name, .. } => *name = name.map(number),
        Rest::Listed { intervals, tail, .. } => {
            for interval in intervals {
                interval.name = number(interval.name);
            }
            if let Some(tail) = tail {
                tail.standard_name = number(tail.standard_name);
                tail.daylight_name = number(tail.daylight_name);
            }
        }
    }
    let content = FileContent { pool, zones: vec![zone], ..FileContent::default() };
    plan(&content, &mut Forms::Preferred).bytes()
}
