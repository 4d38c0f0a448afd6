//! Zones found once, the questions on them and tables of their answers, by the C functions and by the wrapper; and the same on any five
//! numbers.

use crate::cases::{hex, zone_file};
use crate::lent;
use crate::questions::{numbers_of, other_ids, wrapped_numbers, EDITIONS};
use crate::tables;
use crate::tally::{Difference, Outcome, Tally};
use crate::whole::pair;
use nzd::ffi;
use second_reader::codes::read_count;
use second_reader::file::read_file;
use second_reader::generate::{damaged, instants, plan, random_content, Damage, Forms, Prng, Size};
use second_reader::local::instants_of_local;
use second_reader::pool::MOST_STRINGS;
use second_reader::transition::{in_range, FIRST, LAST};
use second_reader::zone::{read_zone, Rest, Zone};
use second_reader::{Answer, Edition, Mark};

/// What lent memory holds before a call.
const FOUND: u64 = 0x5a5a_5a5a_5a5a_5a5a;
/// The place just past a field is at most this.
const LAST_PLACE: u64 = 4_194_304;
/// Instants that every zone is asked at, of which two are out of range.
const INSTANTS: [i64; 5] = [FIRST, 0, LAST, FIRST - 1, i64::MAX];
/// How many other instants of a zone are asked.
const MORE_INSTANTS: usize = 5;
/// The data of zones behind a pool of "A", of which every prefix is taken.
const ZONES: [&str; 4] = [
    "00013000",
    "00020200003232 80c2d72f 003030 0100",
    "00020100003030 e09bd12a 01 32 00 1c0a0132 00 1c030132 32",
    "00020100003030 00 02",
];

/// The five numbers of a zone.
type Five = [u64; 5];

/// Finds a zone, with an output that has a number before and one behind it.
fn five(file: &[u8], id: &[u8]) -> Result<Outcome<Five>, Difference> {
    let mut lent = [FOUND; 7];
    let out = lent[1..].first_chunk_mut::<5>().expect("five of six");
    let given = lent::nothing(file, ffi::find_zone(file, id, out))?;
    let found = *out;
    if lent[0] != FOUND || lent[6] != FOUND || (given.is_err() && lent != [FOUND; 7]) {
        return Err(Difference::new(format!("{given:?} of find_zone left {lent:x?}"), file));
    }
    Ok(given.map(|()| found))
}

/// Finds a zone and asks it: what comes is the question's, where the bytes are all there is. Gives the zone where there is one.
fn find(tally: &mut Tally, file: &[u8], id: &[u8], asked: &[i64], prng: &mut Prng) -> Result<Option<Five>, Difference> {
    let text = id.escape_ascii().to_string();
    let found = five(file, id)?;
    let theirs = second_reader::ask(file, id, 0, Mark::ThisIsAll, Edition::Two).map(|_| ()).map_err(pair);
    tally.same(&format!("finding {text:?}"), file, found.map(|_| ()), theirs)?;
    let Ok(numbers) = found else { return Ok(None) };
    let theirs = |ticks, edition| {
        let answer = second_reader::ask(file, id, ticks, Mark::ThisIsAll, edition);
        answer.map(|answer| numbers_of(&answer)).map_err(pair)
    };
    tables::found(tally, file, id, *prng.pick(asked), prng, &theirs)?;
    for &ticks in asked {
        for (edition, their_edition) in EDITIONS {
            let what = format!("the found {text:?} at {ticks}, edition {edition:?}");
            let theirs = theirs(ticks, their_edition);
            let first = edition == nzd::Edition::One;
            let ours = lent::numbers(file, |out| ffi::ask_zone(file, &numbers, ticks, first, out))?;
            tally.same(&what, file, ours, theirs)?;
            let wrapped = nzd::Zone::find(file, id).and_then(|zone| zone.ask(ticks, edition));
            tally.same(&what, file, wrapped_numbers(file, wrapped), theirs)?;
        }
    }
    Ok(Some(numbers))
}

/// Where the string with a number lies, by the lengths of those before it.
fn string(strings: &[u8], number: usize) -> Option<(usize, usize)> {
    let code = |at: usize| read_count(&strings[at..]).ok().map(|(value, length)| (value as usize, at + length));
    let (_, mut at) = code(0)?;
    for left in (0..=number).rev() {
        let (length, start) = code(at)?;
        if length > strings.len() - start {
            return None;
        }
        if left == 0 {
            return Some((start, length));
        }
        at = start + length;
    }
    None
}

/// The pool and the zone that five numbers name.
fn named(file: &[u8], five: Five) -> Outcome<(&[u8], Zone)> {
    let [pool, past, start, end, place] = five;
    let part = |from: u64, to: u64| file.get(from as usize..to as usize).unwrap_or(&[]);
    let strings = part(pool, past);
    let count = read_count(strings).map_or(0, |(count, _)| count as usize);
    let count = if count <= MOST_STRINGS { count } else { 0 };
    let place = if place <= LAST_PLACE { place } else { 0 };
    let zone = read_zone(part(start, end), count).map_err(|number| (number.value(), place))?;
    Ok((strings, zone))
}

/// A local time of five numbers, worked out with the second reader's zone.
fn mapped(file: &[u8], five: Five, local: i64) -> Outcome<[i64; 3]> {
    let (_, zone) = named(file, five)?;
    let found = instants_of_local(&zone, local);
    let ends = found.first().zip(found.last()).ok_or((17, 0))?;
    Ok([found.len() as i64, *ends.0, *ends.1])
}

/// A question on five numbers, worked out with the second reader's zone.
fn plainly(file: &[u8], five: Five, ticks: i64, edition: Edition) -> Outcome<[i64; 7]> {
    if !in_range(ticks) {
        return Err((14, 0));
    }
    let (strings, zone) = named(file, five)?;
    let holding = zone.at(ticks);
    let number = match (&zone.rest, edition) {
        (Rest::Fixed { .. }, Edition::One) => zone.id,
        _ => holding.interval.name,
    };
    let (at, length) = string(strings, number).unwrap_or((0, 0));
    let at = five[0] as usize + at;
    let interval = holding.interval;
    Ok(numbers_of(&Answer {
        wall: interval.wall,
        savings: interval.savings,
        standard: interval.standard(),
        name: at..at + length,
        start: interval.start,
        end: holding.end,
    }))
}

/// Five numbers near found ones, or any.
fn any_five(file: &[u8], found: Five, prng: &mut Prng) -> Five {
    let mut five = found;
    for _ in 0..prng.below(4) {
        let length = file.len() as u64;
        let near = five[prng.below(5)];
        let choices = [
            near.wrapping_add(1),
            near.wrapping_sub(1),
            0,
            length,
            length + 1,
            LAST_PLACE + 1,
            u64::MAX,
            prng.next_u64(),
        ];
        let inside = prng.below(file.len() + 1) as u64;
        five[prng.below(5)] = if prng.one_in(2) { inside } else { *prng.pick(&choices) };
    }
    five
}

/// Questions on any numbers: no refusal writes, and the answer is that of the bytes that the numbers name.
fn any(tally: &mut Tally, file: &[u8], found: Five, times: usize, prng: &mut Prng) -> Result<(), Difference> {
    for _ in 0..times {
        let five = any_five(file, found, prng);
        let ticks = if prng.one_in(8) { *prng.pick(&INSTANTS) } else { prng.range(FIRST, LAST) };
        for (edition, their_edition) in EDITIONS {
            let first = edition == nzd::Edition::One;
            let ours = lent::numbers(file, |out| ffi::ask_zone(file, &five, ticks, first, out))?;
            let what = format!("the zone at {five:?} at {ticks}, edition {edition:?}");
            tally.same(&what, file, ours, plainly(file, five, ticks, their_edition))?;
        }
        tables::any(tally, file, five, ticks, prng, &|ticks, edition| plainly(file, five, ticks, edition))?;
        let ours = lent::numbers(file, |out| ffi::map_zone_local(file, &five, ticks, out))?;
        let what = format!("the zone at {five:?} at the local time {ticks}");
        tally.same(&what, file, ours, mapped(file, five, ticks))?;
    }
    Ok(())
}

/// The zones of a file that was made elsewhere.
fn published(tally: &mut Tally, file: &[u8], prng: &mut Prng) -> Result<(), Difference> {
    let Ok(contents) = read_file(file) else { return Ok(()) };
    let mut ids = Vec::new();
    for (_, zone) in &contents.zones {
        let id = &file[contents.pool[zone.id].clone()];
        let all = instants(zone, prng);
        let asked = [prng.range(FIRST, LAST), *prng.pick(&all), FIRST - 1];
        if let Some(found) = find(tally, file, id, &asked, prng)? {
            any(tally, file, found, 10, prng)?;
        }
        ids.push(id);
    }
    for id in other_ids(&ids, prng) {
        find(tally, file, &id, &INSTANTS, prng)?;
    }
    Ok(())
}

/// A generated file, a damaged one of it, and prefixes of both; a zone found in the one is asked in the other.
fn generated(tally: &mut Tally, prng: &mut Prng) -> Result<(), Difference> {
    let content = random_content(prng, Size::Small);
    let good = plan(&content, &mut Forms::Any(prng));
    let kind = *prng.pick(&Damage::ALL);
    let files = [good.bytes(), damaged(&good, kind, prng)];
    let ids: Vec<&[u8]> = content.zones.iter().map(|zone| content.id(zone)).collect();
    for file in &files {
        let cut = &file[..prng.below(file.len() + 1)];
        for zone in &content.zones {
            let mut asked = instants(zone, prng);
            while asked.len() > MORE_INSTANTS {
                asked.swap_remove(prng.below(asked.len()));
            }
            asked.extend(INSTANTS);
            let id = content.id(zone);
            find(tally, cut, id, &INSTANTS, prng)?;
            if let Some(found) = find(tally, file, id, &asked, prng)? {
                for other in [file, cut, &files[1]] {
                    any(tally, other, found, 5, prng)?;
                }
            }
        }
        for id in other_ids(&ids, prng) {
            find(tally, file, &id, &INSTANTS, prng)?;
        }
    }
    Ok(())
}

/// Every prefix of small files, the zones of `files`, and generated files.
pub fn all(tally: &mut Tally, prng: &mut Prng, rounds: u64, files: &[(String, Vec<u8>)]) -> Result<(), Difference> {
    for zone in ZONES {
        let file = zone_file(&hex(zone));
        for length in 0..=file.len() {
            for id in ["A", "B", ""] {
                let found = find(tally, &file[..length], id.as_bytes(), &INSTANTS, prng)?;
                any(tally, &file[..length], found.unwrap_or([6, 9, 11, 15, 9]), 20, prng)?;
            }
        }
    }
    for (_, file) in files {
        published(tally, file, prng)?;
    }
    for _ in 0..rounds {
        generated(tally, prng)?;
    }
    Ok(())
}
