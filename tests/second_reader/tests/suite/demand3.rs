//! Demand 3 by brute force: every prefix, both marks, both editions, bytes added.

use crate::common::{generated, pair};
use second_reader::generate::{damaged, instants, Damage, Prng, Size};
use second_reader::transition::{FIRST, LAST};
use second_reader::{ask, Edition, Mark, Number};

/// "If that gives anything but \"not yet\", then whatever bytes follow, the bytes so lengthened give the same answer
/// or refusal, asked with more expected or as all there is." Gives the number of standing results seen.
fn stands(file: &[u8], zone: &[u8], ticks: i64, edition: Edition, prng: &mut Prng) -> usize {
    let mut standing = 0;
    for length in 0..=file.len() {
        let said = ask(&file[..length], zone, ticks, Mark::MoreMayCome, edition);
        if matches!(&said, Err(refusal) if refusal.number == Number::NotYet) {
            continue;
        }
        standing += 1;
        let count = prng.below(9);
        // The rest of the file, bytes that look like a zone, and any bytes.
        let looks_like_a_zone = [vec![1, 4, 0, 1], prng.bytes(count)].concat();
        let any = [prng.bytes(count), prng.bytes(1)];
        for more in [&file[length..], &looks_like_a_zone, &any[0], &any[1]] {
            let longer = [&file[..length], more].concat();
            for mark in [Mark::MoreMayCome, Mark::ThisIsAll] {
                assert_eq!(
                    ask(&longer, zone, ticks, mark, edition),
                    said,
                    "{longer:02x?} after {length}, {zone:?} {ticks}"
                );
            }
        }
    }
    standing
}

#[test]
fn what_was_said_stands() {
    let mut seen = 0;
    for seed in 0..300 {
        let (content, plan, mut prng) = generated(seed, Size::Small);
        let file = plan.bytes();
        let damage = *prng.pick(&Damage::ALL);
        let bad = damaged(&plan, damage, &mut prng);
        let absent = b"No/Such_Zone".to_vec();
        let mut asked: Vec<(Vec<u8>, i64)> = vec![(absent.clone(), 0), (absent, LAST + 1)];
        for zone in &content.zones {
            let ticks = *prng.pick(&instants(zone, &mut prng.clone()));
            asked.push((content.id(zone).to_vec(), ticks));
        }
        for (zone, ticks) in asked {
            let edition = if prng.one_in(2) { Edition::One } else { Edition::Two };
            seen += stands(&file, &zone, ticks, edition, &mut prng);
            // Files that pass a largest size are too long to take every prefix of.
            if bad.len() < 2000 {
                seen += stands(&bad, &zone, ticks, edition, &mut prng);
            }
        }
    }
    assert!(seen > 50_000, "{seen}");
}

#[test]
fn parts_of_well_formed_files_give_exactly_what_they_must() {
    let mut answered = 0;
    for seed in 1000..1300 {
        let (content, plan, mut prng) = generated(seed, Size::Small);
        let file = plan.bytes();
        let extents = plan.extents();
        // The field behind which a question about a zone says no more than it has said: its own, or the first above 1.
        let mut asked: Vec<(Vec<u8>, Option<usize>)> = Vec::new();
        for (number, zone) in content.zones.iter().enumerate() {
            // Field 0 stands before the zones.
            asked.push((content.id(zone).to_vec(), Some(number + 1)));
        }
        for absent in [&b"No/Such_Zone"[..], b"\xff"] {
            asked.push((absent.to_vec(), None));
        }
        let first_above = plan.fields.iter().position(|field| field.id > 1).map(|number| extents[number].start);
        for (zone, field) in asked {
            let mut ticks = vec![FIRST, LAST, prng.range(FIRST, LAST)];
            if let Some(number) = field {
                let all = instants(&content.zones[number - 1], &mut prng);
                ticks.extend([*prng.pick(&all), *prng.pick(&all)]);
            }
            for ticks in ticks {
                let edition = if prng.one_in(2) { Edition::One } else { Edition::Two };
                let whole = ask(&file, &zone, ticks, Mark::ThisIsAll, edition);
                assert_eq!(whole.is_ok(), field.is_some());
                for length in 0..=file.len() {
                    let part = ask(&file[..length], &zone, ticks, Mark::MoreMayCome, edition);
                    let all = ask(&file[..length], &zone, ticks, Mark::ThisIsAll, edition);
                    // Where the part ends: in the version, in a field, or at an end.
                    let cut = extents.iter().find(|extent| extent.start < length && length < extent.end);
                    let place = match cut {
                        _ if length < 4 => 0,
                        Some(extent) => extent.start,
                        None => length,
                    } as u64;
                    let has_said = match field {
                        Some(number) => length >= extents[number].end,
                        None => first_above.is_some_and(|start| length > start),
                    };
                    if has_said {
                        assert_eq!(part, whole, "seed {seed}, {length} bytes, {zone:?} {ticks}");
                        assert_eq!(all, whole);
                        answered += usize::from(whole.is_ok());
                        if let (Err(refusal), Some(start)) = (&whole, first_above) {
                            assert_eq!((refusal.number.value(), refusal.place), (12, start as u64));
                        }
                    } else {
                        assert_eq!(pair(&part), (1, place), "seed {seed}, {length} bytes, {zone:?} {ticks}");
                        let number = if length < 4 || cut.is_some() { 2 } else { 12 };
                        assert_eq!(pair(&all), (number, place), "seed {seed}, {length} bytes, {zone:?} {ticks}");
                    }
                }
            }
        }
    }
    assert!(answered > 50_000, "{answered}");
}

#[test]
fn a_part_of_a_realistic_file() {
    let file = std::fs::read(concat!(env!("CARGO_MANIFEST_DIR"), "/../data/europe.nzd")).expect("europe.nzd");
    let contents = second_reader::file::read_file(&file).expect("well formed");
    for (number, zone) in &contents.zones {
        let field = &contents.fields[*number];
        let end = field.data_place + field.data.len();
        let id = &file[contents.pool[zone.id].clone()];
        let ticks = 17_118_468_000_000_000;
        for edition in [Edition::One, Edition::Two] {
            let whole = ask(&file, id, ticks, Mark::ThisIsAll, edition);
            assert!(whole.is_ok());
            for length in [end - 1, end, end + 1] {
                let said = ask(&file[..length], id, ticks, Mark::MoreMayCome, edition);
                match length < end {
                    true => assert_eq!(pair(&said), (1, field.place as u64)),
                    false => assert_eq!(said, whole),
                }
            }
        }
    }
}
