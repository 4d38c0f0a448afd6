//! 02, Ask 14: closing up the pool.

use crate::common::{ask, ask_named, bytes_of, generated, values, Values};
use second_reader::close_pool::{closed, uses};
use second_reader::file::read_file;
use second_reader::generate::{
    damaged, growing, instants, local_times, names, plan, Damage, FileContent, FilePlan, Forms, Prng, Size,
};
use second_reader::rewrite::preferred;
use second_reader::zone::Rest;
use second_reader::{check, close_pool, location, map_local, version_text};
use second_reader::{Answer, LocationField, Mark, Pin, Refusal};
use std::collections::BTreeSet;

fn pair(refusal: Refusal) -> (u8, u64) {
    (refusal.number.value(), refusal.place)
}

/// The closed file, or number and place.
fn given(file: &str) -> Result<Vec<u8>, (u8, u64)> {
    closed(&bytes_of(file)).map_err(pair)
}

#[test]
fn readings_14_30_to_14_37() {
    for (file, closed) in [
        (
            "V 0009 040141014201430142 0104 00013002 0104 01013002 0303 010302",
            "V 0009 040143014101420142 0104 01013000 0104 02013000 0303 010300",
        ),
        ("V P", "V 000100"),
        ("V 000100", "V 000100"),
        // Transitions keep their form.
        (
            "V P 011d 00020100003030 020000000000000000 01 32 01 1c0a0132 02 1c030132 32",
            "V P 011d 00020100003030 020000000000000000 01 32 01 1c0a0132 02 1c030132 32",
        ),
        // An absent name is no mention and stays absent; field 2's text is none.
        ("V P 0103 020130", "V 0003 010143 0103 000130"),
        ("V P 0103 020130 0202 0141", "V 0003 010143 0103 000130 0202 0141"),
        // Sizes are shortest.
        ("V 00 878000 03014101420143 0184 00 00013000 02 818000 00", "V 0003010141 0104 00013000 020100"),
        // Field 3, 6 and 7.
        ("V P A 0305 0201020201", "V P A 0305 0201020201"),
        ("V P 0103 020130 0607 01000001010102", "V 0005 0201420143 0103 010130 0607 01000000000001"),
        ("V P 070a 01000004020102010201", "V 0005 0201420143 070a 01000004010001000100"),
    ] {
        assert_eq!(given(file), Ok(bytes_of(closed)), "{file}");
    }
}

#[test]
fn reading_14_34_number_22() {
    for (file, said) in [
        ("V P A 0400", (22, 19)),
        ("V P A 0400 00", (5, 21)),
        ("V P 030100 0500 0900", (22, 16)),
        ("V P A 0800", (22, 19)),
        ("V P A ff00", (22, 19)),
        ("V P A 0201 00 030100 060100 070100 0800", (22, 31)),
        // Before 15 and after the check.
        ("V P A 0400 0700", (9, 21)),
        ("V P A 0604 01c2c627", (20, 19)),
        ("", (2, 0)),
        ("V", (6, 4)),
    ] {
        assert_eq!(given(file), Err(said), "{file}");
        let mut out = [];
        assert_eq!(close_pool(&bytes_of(file), &mut out).map_err(pair), Err(said), "{file}");
    }
}

#[test]
fn room() {
    let file = bytes_of("V P A");
    let wanted = bytes_of("V 0003010141 0104 00013000");
    for room in 0..file.len() + 3 {
        let mut out = vec![0xaa; room];
        let said = close_pool(&file, &mut out).map_err(pair);
        match room < wanted.len() {
            true => assert_eq!((said, out), (Err((15, 0)), vec![0xaa; room])),
            false => assert_eq!((said, out), (Ok(15), [&wanted[..], &vec![0xaa; room - wanted.len()]].concat())),
        }
    }
}

/// The file of a content that grows when its pool is closed up.
fn growing_file(zones: usize, more: usize) -> Vec<u8> {
    plan(&growing(zones, more), &mut Forms::Preferred).bytes()
}

#[test]
fn reading_14_33_it_can_grow() {
    for zones in [2, 11] {
        let file = growing_file(zones, 0);
        let contents = read_file(&file).expect("well formed");
        assert!(contents.fields.iter().all(|field| field.id != 1 || field.data.len() == 127));
        let uses = uses(&file, &contents);
        assert!(uses[0] == zones && uses[1..].iter().all(|count| *count > zones));
        let longer = closed(&file).expect("a closed file");
        // A byte and a size's byte more for each zone, and one byte less for each mention of the string that was the last.
        assert_eq!(longer.len(), file.len() + zones - 1);
        let mut out = vec![0xaa; file.len()];
        assert_eq!(close_pool(&file, &mut out).map_err(pair), Err((15, 0)));
        assert!(out.iter().all(|byte| *byte == 0xaa));
        assert_eq!(closed(&longer), Ok(longer.clone()));
    }
    // At the largest place: 4, whatever the room, and 15 never. The field's size takes two bytes more than in a short file.
    let short = growing_file(11, 0).len();
    let file = growing_file(11, (4_194_304 - short - 6) / 2);
    assert!(check(&file) == (0, 0) && (4_194_296..=4_194_304).contains(&file.len()), "{}", file.len());
    for room in [0, file.len() + 100] {
        let mut out = vec![0xaa; room];
        assert_eq!(close_pool(&file, &mut out).map_err(pair), Err((4, 0)));
        assert!(out.iter().all(|byte| *byte == 0xaa));
    }
}

/// A well-formed file without fields that can't be closed, and what it holds.
fn closable(seed: u64, size: Size) -> (FileContent, FilePlan, Prng) {
    let (mut content, _, mut prng) = generated(seed, size);
    content.others = Vec::new();
    let file = plan(&content, &mut Forms::Any(&mut prng));
    (content, file, prng)
}

/// What a question says, places aside.
fn said(file: &[u8], said: Result<Answer, Refusal>) -> Result<Values, u8> {
    said.map(|answer| values(file, answer)).map_err(|refusal| refusal.number.value())
}

/// All of a location but the texts' places.
fn pin_values(file: &[u8], said: Result<Pin, Refusal>) -> Result<(f64, f64, Vec<Vec<u8>>), u8> {
    said.map(|pin| {
        let mut texts = vec![file[pin.zone].to_vec(), file[pin.comment].to_vec()];
        texts.extend(pin.countries.into_iter().flat_map(|(name, code)| [file[name].to_vec(), file[code].to_vec()]));
        (pin.latitude, pin.longitude, texts)
    })
    .map_err(|refusal| refusal.number.value())
}

/// How often each string is mentioned, counted in the content.
fn counted(content: &FileContent) -> Vec<usize> {
    let mut mentioned: Vec<usize> = Vec::new();
    for zone in &content.zones {
        mentioned.push(zone.id);
        match &zone.rest {
            Rest::Fixed { name, .. } => mentioned.extend(name),
            Rest::Listed { intervals, tail, .. } => {
                mentioned.extend(intervals.iter().map(|interval| interval.name));
                mentioned.extend(tail.iter().flat_map(|tail| [tail.standard_name, tail.daylight_name]));
            }
        }
    }
    mentioned.extend(content.aliases.iter().flatten().flat_map(|&(key, target)| [key, target]));
    for location in content.locations.iter().chain(&content.locations_1970).flatten() {
        mentioned.extend(location.countries.iter().flat_map(|&(name, code)| [name, code]));
        mentioned.extend([location.zone, location.comment]);
    }
    let mut counts = vec![0; content.pool.len()];
    mentioned.into_iter().for_each(|number| counts[number] += 1);
    counts
}

#[test]
fn the_pool_is_in_the_order_of_its_uses() {
    let (mut dropped, mut moved) = (0, 0);
    for seed in 140_000..140_800 {
        let (content, plan, _) = closable(seed, Size::Any);
        let file = plan.bytes();
        let out = closed(&file).expect("a closed file");
        assert_eq!(check(&out), (0, 0));
        let (old, new) = (read_file(&file).expect("well formed"), read_file(&out).expect("well formed"));
        let (old_uses, new_uses) = (counted(&content), uses(&out, &new));
        assert_eq!(uses(&file, &old), old_uses);
        // The total of mentions is unchanged, each string that is left is used, and the most used come first.
        assert_eq!(old_uses.iter().sum::<usize>(), new_uses.iter().sum::<usize>());
        assert!(new_uses.iter().all(|count| *count > 0) && new_uses.windows(2).all(|pair| pair[0] >= pair[1]));
        // Each old string with its uses: sorted by uses, ties by old place, these are the new ones.
        let mut wanted: Vec<(usize, usize)> = old_uses
            .iter()
            .enumerate()
            .filter(|(_, count)| **count > 0)
            .map(|(number, count)| (*count, number))
            .collect();
        wanted.sort_by_key(|(count, number)| (std::cmp::Reverse(*count), *number));
        let strings: Vec<&[u8]> = new.pool.iter().map(|part| &out[part.clone()]).collect();
        let wanted_strings: Vec<&[u8]> = wanted.iter().map(|(_, number)| content.pool[*number].as_slice()).collect();
        assert_eq!(strings, wanted_strings, "seed {seed}");
        assert_eq!(new_uses, wanted.iter().map(|(count, _)| *count).collect::<Vec<_>>());
        dropped += usize::from(strings.len() < content.pool.len());
        moved += usize::from(wanted.windows(2).any(|pair| pair[0].1 > pair[1].1));
        // The fields are the same, in the same order, with the shortest sizes.
        let ids = |fields: &[second_reader::file::Field]| fields.iter().map(|field| field.id).collect::<Vec<u8>>();
        assert_eq!(ids(&old.fields), ids(&new.fields));
        let heads: usize = new.fields.iter().map(|field| field.data_place - field.place - 1).sum();
        let shortest = |length: usize| second_reader::codes::encode_count(length as i64).expect("a size").len();
        assert_eq!(heads, new.fields.iter().map(|field| shortest(field.data.len())).sum());
    }
    assert!(dropped > 200 && moved > 100, "{dropped} {moved}");
}

#[test]
fn every_question_answers_as_before() {
    for seed in 141_000..141_300 {
        let (content, plan, mut prng) = closable(seed, Size::Small);
        let file = plan.bytes();
        let out = closed(&file).expect("a closed file");
        for name in names(&content, &mut prng) {
            for mark in [Mark::MoreMayCome, Mark::ThisIsAll] {
                for ticks in [0, i64::MAX] {
                    assert_eq!(said(&out, ask(&out, &name, ticks, mark)), said(&file, ask(&file, &name, ticks, mark)));
                    let named = [&out, &file].map(|file| said(file, ask_named(file, &name, ticks, mark)));
                    assert_eq!(named[0], named[1], "seed {seed}");
                }
            }
        }
        for zone in &content.zones {
            let id = content.id(zone);
            for ticks in instants(zone, &mut prng) {
                let both = [&out, &file].map(|file| said(file, ask(file, id, ticks, Mark::ThisIsAll)));
                assert!(both[0].is_ok() && both[0] == both[1]);
            }
            for local in local_times(zone, &mut prng).into_iter().take(20) {
                assert_eq!(map_local(&out, id, local), map_local(&file, id, local));
            }
        }
        for field in [LocationField::Zone, LocationField::Zone1970] {
            for number in 0..6 {
                let pins = [&out, &file].map(|file| pin_values(file, location(file, field, number)));
                assert_eq!(pins[0], pins[1]);
            }
        }
        let text = |file: &[u8]| version_text(file).map(|part| file[part].to_vec()).map_err(|refusal| refusal.number);
        assert_eq!(text(&out), text(&file));
    }
}

#[test]
fn closing_twice_and_closing_and_rewriting() {
    for seed in 142_000..142_800 {
        let (_, plan, _) = closable(seed, Size::Any);
        let file = plan.bytes();
        let once = closed(&file).expect("a closed file");
        assert_eq!(closed(&once).as_ref(), Ok(&once));
        let both = preferred(&once).expect("well formed");
        assert_eq!(closed(&preferred(&file).expect("well formed")), Ok(both), "seed {seed}");
    }
}

#[test]
fn refusals_in_their_order() {
    let mut numbers = BTreeSet::new();
    for seed in 143_000..145_000 {
        let (_, whole, mut prng) = generated(seed, Size::Small);
        let kind = *prng.pick(&Damage::ALL);
        let file = if prng.one_in(2) { whole.bytes() } else { damaged(&whole, kind, &mut prng) };
        let room = prng.below(file.len() + 2);
        let mut out = vec![0xaa; room];
        let said = close_pool(&file, &mut out).map_err(pair);
        let unread = read_file(&file).ok().and_then(|contents| {
            contents.fields.iter().find(|field| ![0, 1, 2, 3, 6, 7].contains(&field.id)).map(|field| field.place as u64)
        });
        match (check(&file), unread) {
            ((0, 0), Some(place)) => assert_eq!(said, Err((22, place))),
            ((0, 0), None) => assert!(said.is_ok() || said == Err((15, 0))),
            (checked, _) => assert_eq!(said, Err(checked)),
        }
        assert!(said.is_ok() || out.iter().all(|byte| *byte == 0xaa));
        numbers.insert(said.map_or_else(|(number, _)| number, |_| 0));
    }
    assert_eq!(numbers, BTreeSet::from([0, 2, 3, 4, 5, 6, 7, 8, 9, 10, 11, 13, 15, 19, 20, 22]));
}

#[test]
fn realistic_file() {
    let file = std::fs::read(concat!(env!("CARGO_MANIFEST_DIR"), "/../data/all.nzd")).expect("all.nzd");
    let out = closed(&file).expect("a closed file");
    assert!(out.len() <= file.len() && check(&out) == (0, 0));
    for name in [&b"Europe/Oslo"[..], b"Asia/Calcutta", b"Nowhere"] {
        let both = [&out, &file].map(|file| said(file, ask_named(file, name, 0, Mark::MoreMayCome)));
        assert_eq!(both[0], both[1]);
    }
}
