//! 02, Ask 11: the editions.

use crate::common::{generated, pair, worked};
use second_reader::generate::{damaged, instants, names, Damage, Prng, Size};
use second_reader::transition::LAST;
use second_reader::zone::Rest;
use second_reader::{ask, ask_named, ask_plain, lines, Answer, Edition, Mark, Number, Refusal};
use std::collections::BTreeSet;

const MARKS: [Mark; 2] = [Mark::MoreMayCome, Mark::ThisIsAll];

#[test]
fn reading_11_1_what_follows_the_offset_is_checked() {
    worked(&[
        ("ask A 0 all 1", "V 0003010141 0104 00013005", "8 9"),
        ("ask A 0 all 1", "V 0003010141 0105 0001300000", "9 9"),
    ]);
}

#[test]
fn reading_11_2_a_fixed_zone_is_one_of_flag_1() {
    worked(&[("ask A 0 all 1", "V 0005 0201410142 0109 00020100013030 0100", "0 0 0 0 B@10 start end")]);
}

#[test]
fn reading_11_3_the_part_is_the_ids_own_string() {
    worked(&[
        ("ask A 0 all 1", "V 0005 0201410141 0104 00013001", "0 0 0 0 A@8 start end"),
        ("ask A 0 all 2", "V 0005 0201410141 0104 00013001", "0 0 0 0 A@10 start end"),
    ]);
}

#[test]
fn reading_11_4_through_an_alias_it_is_the_canonical_id() {
    worked(&[("named B 0 all 1", "V 0007 03014101420143 0104 00013002 0303 010100", "0 0 0 0 A@8 start end")]);
}

#[test]
fn a_zone_without_a_name_is_alike_under_both() {
    let file = "V 0005 0201410141 0103 010132";
    worked(&[
        ("ask A 0 all 1", file, "0 3600000 0 3600000 A@10 start end"),
        ("ask A 0 all 2", file, "0 3600000 0 3600000 A@10 start end"),
        ("ask A 0 plain 1", "V P 0104 00013001", "0 0 0 0 A@8 start end"),
        ("ask A 0 plain 2", "V P 0104 00013001", "0 0 0 0 B@10 start end"),
        ("line A 0", "V P 0104 00013001", "0 0 0 0 B"),
        // Rewriting is not for an edition (reading 11.6).
        ("normalize 19", "V P 0104 00013001", "0 00000000000703014101420143010400013001"),
    ]);
}

/// All but the name.
fn values(answer: &Answer) -> ([i32; 3], [second_reader::Transition; 2]) {
    ([answer.wall, answer.savings, answer.standard], [answer.start, answer.end])
}

type Said = Result<Answer, Refusal>;

/// What the two editions say of the same question: refusals alike, answers alike but for the name.
fn alike(one: &Said, two: &Said) {
    match (one, two) {
        (Ok(one), Ok(two)) => assert_eq!(values(one), values(two)),
        (one, two) => assert_eq!(one, two),
    }
}

#[test]
fn the_same_bytes_are_accepted_with_the_same_offsets() {
    let mut numbers = BTreeSet::new();
    for seed in 90_000..91_500 {
        let (content, whole, mut prng) = generated(seed, Size::Small);
        let kind = *prng.pick(&Damage::ALL);
        let bad = damaged(&whole, kind, &mut prng);
        for file in [whole.bytes(), bad] {
            let length = if prng.one_in(3) { prng.below(file.len() + 1) } else { file.len() };
            let part = &file[..length];
            for name in names(&content, &mut prng) {
                for mark in MARKS {
                    for ticks in [0, LAST + 1] {
                        let asked = [Edition::One, Edition::Two].map(|edition| ask(part, &name, ticks, mark, edition));
                        alike(&asked[0], &asked[1]);
                        numbers.insert(pair(&asked[0]).0);
                        let [one, two] = [Edition::One, Edition::Two].map(|e| ask_named(part, &name, ticks, mark, e));
                        alike(&one, &two);
                        numbers.insert(pair(&one).0);
                    }
                }
                let [one, two] = [Edition::One, Edition::Two].map(|edition| ask_plain(part, &name, 0, edition));
                alike(&one, &two);
                assert_eq!(one, ask(part, &name, 0, Mark::MoreMayCome, Edition::One));
            }
        }
    }
    assert_eq!(numbers, BTreeSet::from([0, 1, 2, 3, 4, 5, 6, 7, 8, 9, 10, 11, 12, 14, 18, 19]));
}

#[test]
fn only_a_fixed_zones_name_differs() {
    let mut differ = 0;
    for seed in 92_000..92_500 {
        let (content, plan, mut prng) = generated(seed, Size::Small);
        let file = plan.bytes();
        for zone in &content.zones {
            let id = content.id(zone);
            let ticks = *prng.pick(&instants(zone, &mut prng.clone()));
            let [one, two] = [Edition::One, Edition::Two]
                .map(|edition| ask(&file, id, ticks, Mark::ThisIsAll, edition).expect("an answer"));
            match &zone.rest {
                Rest::Fixed { name, .. } => {
                    assert_eq!(&file[one.name.clone()], id);
                    assert_eq!(file[two.name.clone()], content.pool[name.unwrap_or(zone.id)][..]);
                    differ += usize::from(one.name != two.name);
                }
                Rest::Listed { .. } => assert_eq!(one, two),
            }
            // The program's lines mean 2.
            if !id.contains(&b' ') && !id.contains(&b'\n') {
                let said = lines(&file, &[id, format!(" {ticks}\n").as_bytes()].concat());
                assert!(said.ends_with(&[b" ", &file[two.name], b"\n"].concat()));
            }
        }
    }
    assert!(differ > 50, "{differ}");
}

/// Demand 3 for the named question under an edition: what was said stands.
#[test]
fn what_was_said_by_a_name_stands_under_each() {
    let mut standing = 0;
    for seed in 93_000..93_150 {
        let (content, plan, mut prng) = generated(seed, Size::Small);
        let file = plan.bytes();
        for name in names(&content, &mut prng) {
            for edition in [Edition::One, Edition::Two] {
                let whole = ask_named(&file, &name, 0, Mark::ThisIsAll, edition);
                for length in 0..=file.len() {
                    let said = ask_named(&file[..length], &name, 0, Mark::MoreMayCome, edition);
                    if matches!(&said, Err(refusal) if refusal.number == Number::NotYet) {
                        continue;
                    }
                    assert_eq!(said, whole);
                    let longer = [&file[..length], &Prng::new(seed).bytes(3)].concat();
                    for mark in MARKS {
                        assert_eq!(ask_named(&longer, &name, 0, mark, edition), said);
                    }
                    standing += 1;
                }
            }
        }
    }
    assert!(standing > 10_000, "{standing}");
}
