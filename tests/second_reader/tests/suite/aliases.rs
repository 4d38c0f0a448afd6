//! 02, Ask 5: field 3 and the named question.

use crate::common::{ask, ask_named, generated, hex, pair, worked};
use second_reader::generate::{damaged, names, Damage, FileContent, Prng, Size};
use second_reader::transition::{FIRST, LAST};
use second_reader::{check, Answer, Mark, Number, Refusal};
use std::collections::BTreeSet;

const MARKS: [Mark; 2] = [Mark::MoreMayCome, Mark::ThisIsAll];

#[test]
fn reading_5_1_no_such_zone_once_an_id_above_3_has_begun() {
    worked(&[
        ("named B 0 part", "V 0003010141 0103 000130 04", "12 14"),
        ("named B 0 part", "V 0003010141 0103 000130 02", "1 14"),
        ("named B 0 part", "V 0003010141 0103 000130", "1 14"),
        ("named B 0 all", "V 0003010141 0103 000130 020100", "12 17"),
        ("named B 0 part", "V 04", "6 4"),
    ]);
}

#[test]
fn reading_5_2_a_zone_id_never_needs_fields_2_and_3() {
    worked(&[
        ("named A 0 part", "V 0005 0201410142 0103 000130", "0 0 0 0 A@8 start end"),
        ("named A 0 part", "V 0005 0201410142 0103 000130 0300", "0 0 0 0 A@8 start end"),
        ("named A 0 all", "V 0005 0201410142 0103 000130 03", "0 0 0 0 A@8 start end"),
    ]);
}

#[test]
fn reading_5_3_field_2_is_checked_on_the_way() {
    worked(&[
        ("named B 0 all", "V 0005 0201410142 0103 000130 0202 01FF 0303 010100", "8 16"),
        ("named C 0 part", "V 0005 0201410142 0103 000130 0202 01FF 04", "8 16"),
        ("ask B 0 all", "V 0005 0201410142 0103 000130 0202 01FF 0303 010100", "12 16"),
    ]);
}

#[test]
fn reading_5_4_a_name_that_field_3_lacks() {
    worked(&[
        ("named B 0 part", "V 0005 0201410142 0103 000130 0301 00", "12 16"),
        ("named B 0 all", "V 0005 0201410142 0103 000130 0301 00", "12 16"),
        ("named B 0 part", "V 0005 0201410142 0103 000130 0301 00 04", "12 16"),
        ("named B 0 part", "V 0005 0201410142 0103 000130 0302 00", "1 16"),
    ]);
}

#[test]
fn reading_5_5_faults_of_field_3_come_first() {
    worked(&[
        ("named B 0 part", "V 0005 0201410142 0103 000130 0304 010100FF", "9 16"),
        ("named B 0 part", "V 0005 0201410142 0103 000130 0305 0201000105", "19 16"),
    ]);
}

#[test]
fn reading_5_6_eight_targets() {
    worked(&[
        ("named a 0 all", "V 0015 0A 0141 0161 0162 0163 0164 0165 0166 0167 0168 0169 0103 000130 0311 08 0102 0203 0304 0405 0506 0607 0708 0800", "0 0 0 0 A@8 start end"),
        ("named a 0 all", "V 0015 0A 0141 0161 0162 0163 0164 0165 0166 0167 0168 0169 0103 000130 0313 09 0102 0203 0304 0405 0506 0607 0708 0809 0900", "18 32"),
        ("named b 0 all", "V 0015 0A 0141 0161 0162 0163 0164 0165 0166 0167 0168 0169 0103 000130 0313 09 0102 0203 0304 0405 0506 0607 0708 0809 0900", "0 0 0 0 A@8 start end"),
        ("named a 0 all", "V 0015 0A 0141 0161 0162 0163 0164 0165 0166 0167 0168 0169 0103 000130 0311 08 0102 0203 0304 0405 0506 0607 0708 0809", "12 32"),
        ("named a 0 all", "V 0017 0B 0141 0161 0162 0163 0164 0165 0166 0167 0168 0169 016A 0103 000130 0313 09 0102 0203 0304 0405 0506 0607 0708 0809 090A", "18 34"),
    ]);
}

#[test]
fn reading_5_7_a_cycle_is_18() {
    worked(&[
        ("named B 0 part", "V 0005 0201410142 0103 000130 0303 010101", "18 16"),
        ("check", "V 0005 0201410142 0103 000130 0303 010101", "0"),
    ]);
}

#[test]
fn reading_5_8_19_as_soon_as_the_key_is_read() {
    worked(&[
        ("check", "V 0005 0201410142 0103 000130 0304 02010001", "19 16"),
        ("check", "V 0005 0201410142 0103 000130 0305 0201000107", "19 16"),
        ("check", "V 0005 0201410142 0103 000130 0306 020100018000", "19 16"),
        ("check", "V 0005 0201410142 0103 000130 0306 020100010000", "19 16"),
        ("check", "V 0005 0201410142 0103 000130 0304 02010007", "8 16"),
    ]);
}

#[test]
fn reading_5_9_equal_by_bytes() {
    worked(&[
        ("check", "V 0007 03 0141 0142 0142 0103 000130 0305 0201000200", "19 18"),
        ("named B 0 all", "V 0007 03 0141 0142 0141 0103 000130 0303 010102", "0 0 0 0 A@8 start end"),
    ]);
}

#[test]
fn reading_5_10_the_count_of_pairs() {
    worked(&[
        ("check", "V 0005 0201410142 0103 000130 0309 FFFFFFFF07 01000100", "19 16"),
        ("check", "V 0005 0201410142 0103 000130 0305 FFFFFFFF07", "9 16"),
    ]);
}

#[test]
fn reading_5_11_unknown_targets() {
    worked(&[
        ("check", "V 0007 03 0141 0142 0143 0103 000130 0303 010102", "0"),
        ("named B 0 part", "V 0007 03 0141 0142 0143 0103 000130 0303 010102", "12 18"),
        ("named B 0 part", "V 0007 03 0141 0142 0143 0103 000130 0303 010103", "8 18"),
    ]);
}

#[test]
fn reading_5_12_a_zone_id_wins_on_the_way_too() {
    worked(&[("named B 0 all", "V 0007 03 0141 0142 0143 0103 000130 0305 0201000002", "0 0 0 0 A@8 start end")]);
}

#[test]
fn reading_5_13_the_answer_is_the_zones() {
    worked(&[("named B 0 part", "V 0005 0201410142 0103 000130 0303 010100", "0 0 0 0 A@8 start end")]);
}

#[test]
fn reading_5_14_the_old_questions_keep_theirs() {
    worked(&[("line B 0 all", "V 0005 0201410142 0103 000130 0303 010100", "12 16")]);
}

#[test]
fn reading_5_15_not_yet_until_field_3_is_whole() {
    worked(&[
        ("named B 0 part", "V 0005 0201410142 0103 000130 0303 0101", "1 16"),
        ("named B 0 all", "V 0005 0201410142 0103 000130 0303 0101", "2 16"),
        ("named B 0 part", "V 0005 0201410142 0103 000130 03 8080808080", "7 16"),
        ("named B 0 part", "V 0005 0201410142 0103 000130 0306 02010001", "1 16"),
    ]);
}

#[test]
fn reading_5_16_two_zones_with_the_targets_id() {
    worked(&[
        ("named B 0 all", "V 0005 0201410142 0103 000132 0103 000134 0303 010100", "0 3600000 0 3600000 A@8 start end"),
        ("named B 0 all", "V 0005 0201410142 0103 000132 0102 0103 0303 010100", "9 16"),
    ]);
}

#[test]
fn reading_5_17_field_3_without_data_and_without_pairs() {
    worked(&[("check", "V 000100 0301 00", "0"), ("check", "V 000100 0300", "9 7")]);
}

#[test]
fn reading_5_18_the_empty_name() {
    worked(&[("named \"\" 0 part", "V 0004 02014100 0103 000130 0303 010100", "0 0 0 0 A@8 start end")]);
}

#[test]
fn reading_5_19_well_formed_narrows() {
    worked(&[("version", "V 000100 0300", "9 7"), ("check", "V 0005 0201410142 0305 0201000100 03", "19 11")]);
}

#[test]
fn numbers_18_and_19_with_their_places() {
    let pool = "00000000 0007 03014101420143 0103 000130";
    let named = |file: &[u8], name: &[u8], mark: Mark| pair(&ask_named(file, name, 0, mark));
    // B leads to C, C to B: at field 3, behind field 2 too.
    let cycle = hex(&format!("{pool} 0305 0201020201"));
    let behind = hex(&format!("{pool} 0201 00 0305 0201020201 0400"));
    for mark in MARKS {
        assert_eq!((named(&cycle, b"B", mark), named(&cycle, b"C", mark)), ((18, 18), (18, 18)));
        assert_eq!(named(&behind, b"C", mark), (18, 21));
        assert_eq!(named(&behind, b"D", mark), (12, 21));
    }
    assert_eq!((check(&cycle), check(&behind)), ((0, 0), (0, 0)));
    // The same key twice, first and last, by one number.
    let twice = hex(&format!("{pool} 0201 00 0307 03010002000100"));
    assert_eq!(check(&twice), (19, 21));
    for mark in MARKS {
        assert_eq!(named(&twice, b"B", mark), (19, 21));
        assert_eq!(named(&twice, b"D", mark), (19, 21));
        assert_eq!(named(&twice, b"A", mark), (0, 0));
    }
    // 14 before all.
    assert_eq!(pair(&ask_named(&twice, b"B", LAST + 1, Mark::MoreMayCome)), (14, 0));
}

/// The zone's number, 12 or 18: "look(name, n) is the zone of that ID; else, for a key, 18 if n = 0 and look(target, n - 1)
/// if not; else 12; asked is look(name, 8)" (reading 5.6).
fn look(content: &FileContent, name: &[u8], steps: usize) -> Result<usize, u8> {
    if let Some(number) = content.zones.iter().position(|zone| content.id(zone) == name) {
        return Ok(number);
    }
    let target =
        content.aliases.iter().flatten().find(|(key, _)| content.pool[*key] == name).map(|(_, target)| *target);
    match (target, steps) {
        (None, _) => Err(12),
        (Some(_), 0) => Err(18),
        (Some(target), _) => look(content, &content.pool[target], steps - 1),
    }
}

#[test]
fn names_lead_where_the_definition_says() {
    let mut seen = BTreeSet::new();
    for seed in 30_000..30_800 {
        let (content, plan, mut prng) = generated(seed, Size::Any);
        let file = plan.bytes();
        let place =
            |id: u8| plan.fields.iter().position(|field| field.id == id).map(|at| plan.extents()[at].start as u64);
        let above_3 = plan.fields.iter().position(|field| field.id > 3).map(|at| plan.extents()[at].start as u64);
        for name in names(&content, &mut prng) {
            let ticks = prng.range(FIRST, LAST);
            let said = ask_named(&file, &name, ticks, Mark::ThisIsAll);
            let wanted: Result<Answer, (u8, u64)> = match look(&content, &name, 8) {
                Ok(zone) => {
                    let id = content.id(&content.zones[zone]);
                    seen.insert(if id == name { "a zone ID" } else { "an alias" });
                    ask(&file, id, ticks, Mark::ThisIsAll).map_err(|_| (0, 0))
                }
                Err(number) => {
                    seen.insert(if number == 18 { "18" } else { "12" });
                    Err((number, place(3).or(above_3).unwrap_or(file.len() as u64)))
                }
            };
            let said = said.map_err(|refusal: Refusal| (refusal.number.value(), refusal.place));
            assert_eq!(said, wanted, "seed {seed}, {name:?}");
        }
    }
    assert_eq!(seen, BTreeSet::from(["12", "18", "a zone ID", "an alias"]));
}

/// Reading 5.20: "a zone ID waits for that zone's field; else, if there is a field 3, the name waits for it to be whole, key
/// or not; else for the first byte of an ID above 3; else for ever. From then on: what the whole file gives".
#[test]
fn parts_of_well_formed_files_give_exactly_what_they_must() {
    let mut given = BTreeSet::new();
    for seed in 31_000..31_250 {
        let (content, plan, mut prng) = generated(seed, Size::Small);
        let file = plan.bytes();
        let extents = plan.extents();
        let field = |wanted: &dyn Fn(u8) -> bool| plan.fields.iter().position(|field| wanted(field.id));
        for name in names(&content, &mut prng) {
            let ticks = prng.range(FIRST, LAST);
            let zone = content.zones.iter().position(|zone| content.id(zone) == name);
            // The length from which on the part has said what it has to say.
            let waits_for = match (zone, field(&|id| id == 3), field(&|id| id > 3)) {
                (Some(number), _, _) => Some(extents[number + 1].end),
                (None, Some(aliases), _) => Some(extents[aliases].end),
                (None, None, Some(above)) => Some(extents[above].start + 1),
                (None, None, None) => None,
            };
            let whole = ask_named(&file, &name, ticks, Mark::ThisIsAll);
            for length in 0..=file.len() {
                let part = ask_named(&file[..length], &name, ticks, Mark::MoreMayCome);
                let all = ask_named(&file[..length], &name, ticks, Mark::ThisIsAll);
                if waits_for.is_some_and(|end| length >= end) {
                    assert_eq!((&part, &all), (&whole, &whole), "seed {seed}, {length} bytes, {name:?}");
                    given.insert(pair(&whole).0);
                } else {
                    let cut = extents.iter().find(|extent| extent.start < length && length < extent.end);
                    let place = match cut {
                        _ if length < 4 => 0,
                        Some(extent) => extent.start as u64,
                        None => length as u64,
                    };
                    let number = if length < 4 || cut.is_some() { 2 } else { 12 };
                    assert_eq!(
                        (pair(&part), pair(&all)),
                        ((1, place), (number, place)),
                        "seed {seed}, {length}, {name:?}"
                    );
                }
            }
        }
    }
    assert_eq!(given, BTreeSet::from([0, 12, 18]));
}

/// Whatever follows, what was said with more expected stands. Gives the numbers that were said.
fn stands(file: &[u8], name: &[u8], ticks: i64, prng: &mut Prng) -> BTreeSet<u8> {
    let mut said_numbers = BTreeSet::new();
    for length in 0..=file.len() {
        let said = ask_named(&file[..length], name, ticks, Mark::MoreMayCome);
        if matches!(&said, Err(refusal) if refusal.number == Number::NotYet) {
            continue;
        }
        said_numbers.insert(pair(&said).0);
        let count = prng.below(9);
        let looks_like_aliases = [vec![3, 3, 1, 0], prng.bytes(count)].concat();
        for more in [&file[length..], &looks_like_aliases, &prng.bytes(count), &prng.bytes(1)] {
            let longer = [&file[..length], more].concat();
            for mark in MARKS {
                assert_eq!(
                    ask_named(&longer, name, ticks, mark),
                    said,
                    "{longer:02x?} after {length}, {name:?} {ticks}"
                );
            }
        }
    }
    said_numbers
}

#[test]
fn what_was_said_stands() {
    let mut given = BTreeSet::new();
    for seed in 32_000..32_300 {
        let (content, plan, mut prng) = generated(seed, Size::Small);
        let kind = *prng.pick(&Damage::ALL);
        let bad = damaged(&plan, kind, &mut prng);
        for name in names(&content, &mut prng) {
            given.extend(stands(&plan.bytes(), &name, 0, &mut prng));
            if bad.len() < 2000 {
                given.extend(stands(&bad, &name, prng.clone().range(FIRST, LAST), &mut prng));
            }
        }
    }
    assert_eq!(given, BTreeSet::from([0, 3, 4, 5, 6, 7, 8, 9, 10, 11, 12, 18, 19]));
}

#[test]
fn a_zone_id_is_answered_as_by_the_old_question() {
    let mut answered = 0;
    for seed in 33_000..34_000 {
        let (content, plan, mut prng) = generated(seed, Size::Small);
        let kind = *prng.pick(&Damage::ALL);
        let file = damaged(&plan, kind, &mut prng);
        for name in names(&content, &mut prng) {
            for mark in MARKS {
                let (old, new) = (ask(&file, &name, 0, mark), ask_named(&file, &name, 0, mark));
                if old.is_ok() {
                    answered += 1;
                    assert_eq!(new, old);
                } else if pair(&old).0 != 12 && pair(&old).0 != 1 {
                    // Both go through field 0 and the zones alike.
                    assert_eq!(new, old);
                }
            }
        }
    }
    assert!(answered > 1_000, "{answered}");
}

#[test]
fn realistic_aliases() {
    let file = std::fs::read(concat!(env!("CARGO_MANIFEST_DIR"), "/../data/all.nzd")).expect("all.nzd");
    let contents = second_reader::file::read_file(&file).expect("well formed");
    let string = |number: usize| &file[contents.pool[number].clone()];
    let pairs = contents.aliases.as_ref().expect("field 3");
    for &(key, target) in pairs {
        let by_alias = ask_named(&file, string(key), 0, Mark::MoreMayCome);
        assert_eq!(
            by_alias,
            ask(&file, string(target), 0, Mark::ThisIsAll),
            "{}",
            String::from_utf8_lossy(string(key))
        );
        // The old question knows no alias.
        assert_eq!(pair(&ask(&file, string(key), 0, Mark::ThisIsAll)).0, 12);
    }
}
