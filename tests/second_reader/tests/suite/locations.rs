//! 02, Ask 8: fields 6 and 7.

use crate::common::{ask, ask_named, bytes_of, generated, worked};
use second_reader::file::read_file;
use second_reader::generate::{damaged, Damage, FileContent, Size};
use second_reader::locations::{degrees, Location};
use second_reader::{check, location, rewrite, version_text, LocationField, Mark, Pin, Refusal};
use std::collections::BTreeSet;

const FIELDS: [LocationField; 2] = [LocationField::Zone, LocationField::Zone1970];

#[test]
fn reading_8_1_the_zone_id_stands_before_the_comment() {
    worked(&[
        ("check", "V P 0606 010000000102", "9 13"),
        ("check", "V P 0607 01000000010200", "0"),
        ("location 6 0", "V P 0607 01000000010200", "0 0 0 C A A/B"),
        ("location 7 0", "V P 0707 01000002000102", "9 13"),
        ("location 7 0", "V P 0708 0100000200010201", "0 0 0 C B A/B"),
        ("location 7 0", "V P 070a 01000004000102020100", "0 0 0 B A A/B C/C"),
    ]);
}

#[test]
fn reading_8_2_each_is_judged_as_read() {
    worked(&[
        ("check", "V P 0604 01c2c627", "20 13"),
        ("check", "V P 0606 01c2c6278000", "20 13"),
        ("check", "V P 0605 01 00 828d4f", "20 13"),
        ("check", "V P 0607 01 00 828d4f 8000", "20 13"),
        ("check", "V P 0704 01 00 00 01", "20 13"),
        ("check", "V P 0706 01 00 00 01 8000", "20 13"),
        // A value's own code comes before its range.
        ("check", "V P 0603 018000", "7 13"),
        ("check", "V P 0604 01008000", "7 13"),
        ("check", "V P 0704 010000 80", "9 13"),
        ("check", "V P 0603 0180c6", "9 13"),
    ]);
}

#[test]
fn reading_8_3_both_ends_are_within() {
    worked(&[
        ("check", "V P 0609 01c0c627 00 00000000", "0"),
        ("location 6 0", "V P 0609 01c0c627 00 00000000", "0 90 0 A A A/A"),
        ("check", "V P 0609 01bfc627 00 00000000", "0"),
        ("location 6 0", "V P 0609 01bfc627 00 00000000", "0 -90 0 A A A/A"),
        ("location 6 0", "V P 0609 01 00 808d4f 00000000", "0 0 180 A A A/A"),
        ("location 6 0", "V P 0609 01 00 ff8c4f 00000000", "0 0 -180 A A A/A"),
        ("check", "V P 0604 01c1c627", "20 13"),
        ("check", "V P 0605 0100818d4f", "20 13"),
        ("check", "V P 0605 0100828d4f", "20 13"),
        ("check", "V P 0707 01c2c627 000000", "20 13"),
        ("check", "V P 0609 01 ffffffff0f 00 00 00", "20 13"),
    ]);
}

#[test]
fn reading_8_4_no_country() {
    worked(&[("check", "V P 0706 010000000000", "0"), ("location 7 0", "V P 0706 010000000201", "0 0 0 C B")]);
}

#[test]
fn reading_8_5_huge_numbers_are_no_fault() {
    worked(&[
        ("check", "V P 0704 01000001", "20 13"),
        ("check", "V P 0708 010000feffffff0f", "9 13"),
        ("check", "V P 0709 010000feffffff0f03", "8 13"),
        ("check", "V P 0708 010000ffffffff0f", "20 13"),
        ("check", "V P 0605 ffffffff07", "9 13"),
        ("check", "V P 0705 ffffffff07", "9 13"),
    ]);
}

#[test]
fn reading_8_6_without_locations() {
    worked(&[
        ("check", "V P 0600", "9 13"),
        ("check", "V P 0700", "9 13"),
        ("check", "V P 060100", "0"),
        ("check", "V P 070100", "0"),
        ("location 6 0", "V P 060100", "12 13"),
    ]);
}

#[test]
fn reading_8_7_texts() {
    worked(&[
        ("check", "V P 0608 0100000001020000", "9 13"),
        ("check", "V P 0607 01000003010200", "8 13"),
        ("check", "V P 0607 01000000030200", "8 13"),
        ("check", "V P 0607 01000000010300", "8 13"),
        ("check", "V P 0607 01000000010203", "8 13"),
        ("check", "V P 0608 0100008000010200", "7 13"),
        ("check", "V P 0603 010000", "9 13"),
        ("check", "V P 0607 01000000000000", "0"),
        // Each comes before the one behind it.
        ("check", "V P 0605 0100000380", "8 13"),
        ("check", "V P 0709 010000 02 0003 8000", "2 13"),
        ("check", "V P 0708 010000 02 0003 8000", "8 13"),
    ]);
}

#[test]
fn reading_8_8_in_its_own_turn() {
    worked(&[("check", "V P 0604 01c2c627 00", "20 13"), ("check", "V P 060100 0704 01000001 06", "20 16")]);
}

#[test]
fn reading_8_9_the_check_first() {
    let good = "V P A 0607 01000000010200";
    worked(&[
        ("check", good, "0"),
        ("location 6 0", good, "0 0 0 C A A/B"),
        ("location 6 1", good, "12 19"),
        ("location 6 18446744073709551615", good, "12 19"),
        ("location 7 0", good, "12 28"),
        ("location 6 0", "V P A 0607 01000000010200 00", "5 28"),
        ("location 6 0", "V P A 0607 010000000102", "2 19"),
        ("location 6 0", "", "2 0"),
        ("location 7 0", "V", "6 4"),
        ("location 6 0", "V P A 0700", "9 19"),
    ]);
}

#[test]
fn reading_8_13_the_questions_stop_before_them() {
    let file = "V P A 0604 01c2c627";
    worked(&[
        ("ask A 0 part", file, "0 0 0 0 A@8 start end"),
        ("named A 0 all", file, "0 0 0 0 A@8 start end"),
        ("ask C 0 part", file, "12 19"),
        ("named C 0 part", file, "12 19"),
        ("wall C 0", file, "12 19"),
        ("version", file, "20 19"),
        ("normalize 99", file, "20 19"),
    ]);
}

#[test]
fn reading_8_14_an_empty_pool() {
    worked(&[
        ("check", "V 000100 060100", "0"),
        ("check", "V 000100 0607 01000000000000", "8 7"),
        ("check", "V 000100 0704 01000000", "9 7"),
    ]);
}

/// Whether `quotient` is `seconds` / 3600 rounded once to nearest, ties to even, in whole numbers: with the quotient m times
/// 2 to the e, the seconds are within half of 3600 times 2 to the e, and m is even where they are just there.
fn rounded_once(seconds: i32, quotient: f64) -> bool {
    if seconds == 0 {
        return quotient.to_bits() == 0;
    }
    let bits = quotient.abs().to_bits();
    let mantissa = i128::from(bits & ((1 << 52) - 1) | 1 << 52);
    let scale = 1075 - (bits >> 52) as i32;
    let exact = i128::from(seconds.abs()) << scale;
    let off = (exact - 3600 * mantissa).abs();
    (quotient < 0.0) == (seconds < 0) && (off < 1800 || off == 1800 && mantissa % 2 == 0)
}

#[test]
fn reading_8_11_degrees_are_rounded_once() {
    let (mut by_product, mut by_sixty) = (0, 0);
    for seconds in -648_000..=648_000 {
        let quotient = degrees(seconds);
        assert!(rounded_once(seconds, quotient), "{seconds}");
        by_product += usize::from(f64::from(seconds) * (1.0 / 3600.0) != quotient);
        by_sixty += usize::from(f64::from(seconds) / 60.0 / 60.0 != quotient);
        // "Where seconds are a multiple of 225 the degrees are exact, and sixteen times them is seconds over 225."
        if seconds % 225 == 0 {
            assert_eq!(16.0 * quotient, f64::from(seconds / 225));
        }
    }
    assert_eq!((by_product, by_sixty), (6_986, 309_470));
    assert_eq!((degrees(3).to_bits(), degrees(5).to_bits()), (0x3f4b_4e81_b4e8_1b4f, 0x3f56_c16c_16c1_6c17));
    assert_eq!(degrees(0).to_bits(), 0);
    assert_eq!((degrees(324_000), degrees(-648_000), degrees(1_800)), (90.0, -180.0, 0.5));
}

fn of_content(content: &FileContent, field: LocationField) -> Option<&Vec<Location>> {
    match field {
        LocationField::Zone => content.locations.as_ref(),
        LocationField::Zone1970 => content.locations_1970.as_ref(),
    }
}

#[test]
fn locations_are_those_of_the_content() {
    let mut seen = 0;
    for seed in 60_000..60_600 {
        let (content, plan, _) = generated(seed, Size::Small);
        let file = plan.bytes();
        let extents = plan.extents();
        for field in FIELDS {
            let at = plan.fields.iter().position(|planned| planned.id == field.id());
            let place = at.map_or(file.len(), |at| extents[at].start) as u64;
            let locations = of_content(&content, field);
            let text = |part: &std::ops::Range<usize>| file[part.clone()].to_vec();
            let string = |number: usize| content.pool[number].clone();
            for (number, wanted) in locations.iter().flat_map(|all| all.iter()).enumerate() {
                let pin: Pin = location(&file, field, number as u64).expect("a location");
                assert!(rounded_once(wanted.latitude, pin.latitude) && rounded_once(wanted.longitude, pin.longitude));
                assert_eq!((text(&pin.zone), text(&pin.comment)), (string(wanted.zone), string(wanted.comment)));
                let countries: Vec<_> = pin.countries.iter().map(|(name, code)| (text(name), text(code))).collect();
                let listed: Vec<_> =
                    wanted.countries.iter().map(|&(name, code)| (string(name), string(code))).collect();
                assert_eq!(countries, listed);
                assert!(field == LocationField::Zone1970 || countries.len() == 1);
                seen += 1;
            }
            let count = locations.map_or(0, Vec::len) as u64;
            for number in [count, count + 1, u64::from(u32::MAX), u64::MAX] {
                let refusal = location(&file, field, number).expect_err("no such location");
                assert_eq!((refusal.number.value(), refusal.place), (12, place));
            }
        }
    }
    assert!(seen > 500, "{seen}");
}

#[test]
fn the_checks_faults_come_first_and_questions_do_not_see_them() {
    let mut refused = BTreeSet::new();
    for seed in 61_000..63_000 {
        let (content, whole, mut prng) = generated(seed, Size::Small);
        let kind = *prng.pick(&Damage::ALL);
        let file = damaged(&whole, kind, &mut prng);
        let checked = check(&file);
        let pair = |refusal: Refusal| (refusal.number.value(), refusal.place);
        for field in FIELDS {
            match location(&file, field, prng.below(3) as u64).map_err(pair) {
                Ok(_) => assert_eq!(checked, (0, 0)),
                Err(refusal) if checked != (0, 0) => assert_eq!(refusal, checked),
                Err((number, _)) => assert_eq!(number, 12),
            }
        }
        refused.insert(checked.0);
        if checked.0 == 20 {
            // All before it is good, so every question says what it says of the part before.
            let (before, mut out) = (&file[..checked.1 as usize], vec![0xaa; file.len()]);
            assert!(read_file(before).is_ok() && matches!(file[checked.1 as usize], 6 | 7));
            assert_eq!(version_text(&file).map_err(pair), Err(checked));
            assert_eq!(rewrite(&file, &mut out).map_err(pair), Err(checked));
            for zone in &content.zones {
                let id = content.id(zone);
                assert_eq!(ask(&file, id, 0, Mark::MoreMayCome), ask(before, id, 0, Mark::ThisIsAll));
                assert_eq!(ask_named(&file, id, 0, Mark::MoreMayCome), ask(before, id, 0, Mark::ThisIsAll));
            }
        }
    }
    assert!(refused.contains(&20), "{refused:?}");
}

#[test]
fn any_bytes_get_an_answer() {
    let mut prng = second_reader::generate::Prng::new(8);
    let mut numbers = BTreeSet::new();
    for _ in 0..50_000 {
        let count = prng.below(24);
        let mut data = prng.bytes(count);
        for byte in &mut data {
            *byte = if prng.one_in(2) { *byte % 4 } else { *byte };
        }
        let id = *prng.pick(&[6, 7]);
        let file = [bytes_of("V P"), vec![id, count as u8], data].concat();
        let (number, place) = check(&file);
        assert!(place == 13 || number == 0);
        numbers.insert(number);
        for field in FIELDS {
            let said = location(&file, field, 0);
            assert!(said.is_err() || number == 0 && field.id() == id);
        }
    }
    assert_eq!(numbers, BTreeSet::from([0, 7, 8, 9, 20]));
}
