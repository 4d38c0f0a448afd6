//! 02, Ask 6: trailing zero groups in a field's size.

use crate::common::{ask, ask_named, generated, values, worked};
use second_reader::codes::{encode_count, read_count, read_size};
use second_reader::generate::plan::Kind;
use second_reader::generate::{damaged, instants, plan, Damage, Forms, Prng, Size};
use second_reader::rewrite::preferred;
use second_reader::{check, Mark, Number, Refusal};
use std::collections::BTreeSet;

#[test]
fn reading_6_1_one_to_five_bytes() {
    worked(&[
        ("check", "V 00 8300 010141", "0"),
        ("check", "V 00 8380808000 010141", "0"),
        ("check", "V 00 838080808000 010141", "7 4"),
        ("check", "V 00 8380808080 010141", "7 4"),
        ("check", "V 00 8080808000", "9 4"),
    ]);
}

#[test]
fn reading_6_2_the_values_range() {
    worked(&[
        ("check", "V 00 8380808008 010141", "7 4"),
        ("check", "V 00 8380808007 010141", "4 4"),
        ("check", "V 00 FFFFFFFF00 010141", "4 4"),
    ]);
}

#[test]
fn reading_6_3_the_padding_counts_for_the_limit() {
    worked(&[
        ("ask A 0 part", "V 0007 03014101420143 01 EEFFFF01", "1 13"),
        ("ask A 0 part", "V 0007 03014101420143 01 EEFFFF8100", "4 13"),
    ]);
}

#[test]
fn reading_6_4_cut_sizes() {
    worked(&[
        ("ask A 0 part", "V 00 8380", "1 4"),
        ("ask A 0 all", "V 00 83808080", "2 4"),
        ("ask A 0 part", "V 00 8380808080", "7 4"),
    ]);
}

#[test]
fn reading_6_5_all_other_counts_stay_shortest() {
    worked(&[("check", "V 0004 81000141", "7 4"), ("check", "V 0005 0201410142 0304 81000100", "7 11")]);
}

#[test]
fn reading_6_6_rewriting_shortens_every_size() {
    worked(&[("normalize 99", "V 00 8300 010141 C8 8200 AAAA", "0 000000000003010141c802aaaa")]);
}

#[test]
fn reading_6_7_places_count_the_padding() {
    worked(&[("ask B 0 part", "V 00 83808000 010141 01 8300 000130 02", "12 18")]);
}

#[test]
fn reading_6_8_readings_that_change() {
    worked(&[("check", "V 0003010141 028000", "9 9")]);
}

#[test]
fn sizes_by_arithmetic() {
    let mut prng = Prng::new(6);
    let (mut padded, mut refused) = (0, 0);
    for _ in 0..200_000 {
        let count = prng.below(8);
        let mut bytes = prng.bytes(count);
        for byte in &mut bytes {
            // Zero groups and top bits more often than by chance.
            *byte = if prng.one_in(3) { *byte & 0x80 } else { *byte };
        }
        let last = bytes.iter().take(5).position(|byte| byte & 0x80 == 0);
        let value: u64 = bytes.iter().take(5).enumerate().map(|(at, byte)| u64::from(byte & 0x7f) << (7 * at)).sum();
        let wanted = match last {
            None if bytes.len() < 5 => Err(Number::BadData),
            None => Err(Number::BadCode),
            Some(last) => {
                let value = value & ((1 << (7 * (last + 1))) - 1);
                if value > 2_147_483_647 {
                    Err(Number::BadCode)
                } else {
                    Ok((value as u32, last + 1))
                }
            }
        };
        assert_eq!(read_size(&bytes), wanted, "{bytes:02x?}");
        // A count is a size in its shortest form.
        let shortest =
            wanted.is_ok_and(|(value, length)| encode_count(value.into()).is_ok_and(|code| code.len() == length));
        padded += usize::from(wanted.is_ok() && !shortest);
        refused += usize::from(wanted == Err(Number::BadCode));
        match shortest {
            true => assert_eq!(read_count(&bytes), wanted),
            false => assert_eq!(read_count(&bytes), Err(wanted.err().unwrap_or(Number::BadCode))),
        }
    }
    assert!(padded > 10_000 && refused > 1_000, "{padded} {refused}");
}

/// The bytes with other paddings in the sizes of whole fields, and for each place of an ID byte its new place.
fn padded_anew(bytes: &[u8], prng: &mut Prng) -> (Vec<u8>, Vec<(u64, u64)>) {
    let mut out = bytes[..bytes.len().min(4)].to_vec();
    let mut places = vec![(0, 0)];
    let mut at = out.len();
    loop {
        places.push((at as u64, out.len() as u64));
        let size = bytes.get(at + 1..).map(read_size);
        let Some(Ok((size, length))) = size else { break };
        let data = at + 1 + length;
        let Some(field) = bytes.get(data..data + size as usize) else { break };
        let mut code = encode_count(size.into()).expect("a size");
        for _ in 0..prng.below(6 - code.len()) {
            let last = code.len() - 1;
            code[last] |= 0x80;
            code.push(0);
        }
        out.push(bytes[at]);
        out.extend(code);
        out.extend(field);
        at = data + size as usize;
    }
    // The rest, which isn't a whole field.
    out.extend(&bytes[at..]);
    places.push((bytes.len() as u64, out.len() as u64));
    (out, places)
}

fn moved(refusal: Refusal, places: &[(u64, u64)]) -> (u8, u64) {
    let new = places.iter().find(|(old, _)| *old == refusal.place).map(|(_, new)| *new);
    (refusal.number.value(), new.expect("the place of an ID byte or an end"))
}

#[test]
fn paddings_change_nothing_but_places() {
    let mut numbers = BTreeSet::new();
    for seed in 40_000..41_500 {
        let (content, whole, mut prng) = generated(seed, Size::Small);
        let kind = *prng.pick(&Damage::ALL);
        let bad = damaged(&whole, kind, &mut prng);
        for file in [whole.bytes(), bad] {
            // Near the largest place paddings do matter.
            if kind == Damage::LimitPassed {
                continue;
            }
            let (other, places) = padded_anew(&file, &mut prng);
            let checked = check(&file);
            numbers.insert(checked.0);
            match preferred(&file) {
                Ok(best) => assert_eq!(preferred(&other), Ok(best)),
                Err(refusal) => assert_eq!(check(&other), moved(refusal, &places), "seed {seed}"),
            }
            let ids = content.zones.iter().map(|zone| content.id(zone)).chain([&b"No/Such_Zone"[..]]);
            for id in ids {
                for mark in [Mark::MoreMayCome, Mark::ThisIsAll] {
                    for question in [ask, ask_named] {
                        let one = question(&file, id, 0, mark).map(|answer| values(&file, answer));
                        let two = question(&other, id, 0, mark).map(|answer| values(&other, answer));
                        let one = one.map_err(|refusal| moved(refusal, &places));
                        assert_eq!(two.map_err(|refusal| (refusal.number.value(), refusal.place)), one, "seed {seed}");
                    }
                }
            }
        }
    }
    assert_eq!(numbers, BTreeSet::from([0, 2, 3, 4, 5, 6, 7, 8, 9, 10, 11, 13, 19, 20]));
}

#[test]
fn rewriting_gives_shortest_sizes() {
    let mut shortened = 0;
    for seed in 42_000..42_500 {
        let (content, any, mut prng) = generated(seed, Size::Small);
        let shortest = plan(&content, &mut Forms::Preferred).bytes();
        let (file, _) = padded_anew(&any.bytes(), &mut prng);
        assert_eq!(preferred(&file).as_ref(), Ok(&shortest));
        shortened += usize::from(any.fields.iter().any(|field| field.padding > 0));
        // Every zone answers as in the preferred file.
        for zone in &content.zones {
            let ticks = *prng.pick(&instants(zone, &mut prng.clone()));
            let answers = [&file, &shortest]
                .map(|file| ask(file, content.id(zone), ticks, Mark::ThisIsAll).map(|answer| values(file, answer)));
            assert!(answers[0].is_ok() && answers[0] == answers[1]);
        }
    }
    assert!(shortened > 200, "{shortened}");
}

#[test]
fn every_other_count_stays_shortest() {
    let mut kinds = BTreeSet::new();
    for seed in 43_000..43_200 {
        let (_, whole, _) = generated(seed, Size::Small);
        for (number, field) in whole.fields.iter().enumerate() {
            for (at, code) in field.codes.iter().enumerate() {
                let what = match code.kind {
                    Kind::PoolCount => "pool count",
                    Kind::Text => "text",
                    Kind::PoolNumber => "pool number",
                    Kind::IntervalCount => "interval count",
                    Kind::Transition(_) => "transition",
                    Kind::Month => "month",
                    Kind::Day(_) => "day",
                    Kind::PairCount => "pair count",
                    Kind::LocationCount => "location count",
                    Kind::Coordinate(_) => "coordinate",
                    Kind::CountryCount => "country count",
                    _ => continue,
                };
                kinds.insert(what);
                let mut file = whole.clone();
                let bytes = &mut file.fields[number].codes[at].bytes;
                let last = bytes.iter().position(|byte| byte & 0x80 == 0).expect("a count");
                bytes[last] |= 0x80;
                bytes.insert(last + 1, 0);
                assert_eq!(check(&file.bytes()), (7, file.extents()[number].start as u64), "seed {seed}, {what}");
            }
        }
    }
    assert_eq!(kinds.len(), 11, "{kinds:?}");
}
