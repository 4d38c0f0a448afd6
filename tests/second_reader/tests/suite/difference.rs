//! 02, Ask 14: the stretches at which two files differ.

use crate::common::{ask_all, bytes_of, generated};
use second_reader::difference::{differences, Stretch};
use second_reader::generate::{changed_content, damaged, instants, plan, Damage, Forms, Prng, Size};
use second_reader::transition::{FIRST, LAST};
use second_reader::zone::{Interval, Rest, Zone};
use second_reader::{codes, difference, Refusal, Transition};
use std::collections::BTreeSet;

/// The stretches, or number and place.
fn given(one: &str, two: &str, zone: &str, first: i64, last: i64) -> Result<Vec<Stretch>, (u8, u64)> {
    let files = [bytes_of(one), bytes_of(two)];
    differences([&files[0], &files[1]], zone.as_bytes(), first, last).map_err(pair)
}

fn pair(refusal: Refusal) -> (u8, u64) {
    (refusal.number.value(), refusal.place)
}

#[test]
fn reading_14_1_the_window() {
    let (one, two) = ("V P A", "V P 0104 00013200");
    assert_eq!(given(one, two, "A", LAST, LAST + 1), Err((14, 0)));
    assert_eq!(given(one, two, "A", FIRST - 1, 0), Err((14, 0)));
    assert_eq!(given(one, two, "A", FIRST, LAST), Ok(vec![(FIRST, LAST)]));
    assert_eq!(given(one, two, "A", LAST, LAST), Ok(vec![]));
    // 14 comes before the files' refusals.
    assert_eq!(given("", "", "A", i64::MIN, 0), Err((14, 0)));
    assert_eq!(given("", "", "A", 0, 0), Err((2, 0)));
}

#[test]
fn reading_14_2_no_instant_in_the_window() {
    let (one, two) = ("V P A", "V P 0104 00013200");
    assert_eq!(given(one, two, "A", 5, 5), Ok(vec![]));
    assert_eq!(given(one, two, "A", 6, 5), Ok(vec![]));
    assert_eq!(given(one, two, "C", 6, 5), Err((12, 19)));
}

#[test]
fn reading_14_3_a_stretch_runs_on() {
    let two = "V P 0121 00020300003230 02000000000000000a 013030 020000000000000014 0030300100";
    assert_eq!(given("V P A", two, "A", 0, 30), Ok(vec![(0, 20)]));
    assert_eq!(given(two, "V P A", "A", 0, 30), Ok(vec![(0, 20)]));
    assert_eq!(given("V P A", two, "A", 5, 12), Ok(vec![(5, 12)]));
    assert_eq!(given("V P A", two, "A", 20, 30), Ok(vec![]));
    assert_eq!(given("V P A", two, "A", 19, 30), Ok(vec![(19, 20)]));
}

#[test]
fn reading_14_4_bounds_are_not_compared() {
    assert_eq!(given("V P A", "V P 0109 000201000030300100", "A", FIRST, LAST), Ok(vec![]));
}

#[test]
fn reading_14_5_a_zone_that_a_file_lacks() {
    assert_eq!(given("V P", "V P", "A", 0, 1), Err((12, 13)));
    assert_eq!(given("V P A", "V P", "A", 0, 1), Err((12, 13)));
    assert_eq!(given("V P", "V P A", "A", 0, 1), Err((12, 13)));
    // The first file's refusals come first.
    assert_eq!(given("V P", "", "A", 0, 1), Err((12, 13)));
    assert_eq!(given("V P A", "", "A", 0, 1), Err((2, 0)));
    assert_eq!(given("", "V P", "A", 0, 1), Err((2, 0)));
}

#[test]
fn reading_14_6_a_questions_refusals() {
    assert_eq!(given("V P A", "V P 0104 00013200 00", "A", 0, 1), Ok(vec![(0, 1)]));
}

#[test]
fn reading_14_7_room() {
    // Two stretches: before tick 10 and from tick 20 on.
    let one = bytes_of("V P A");
    let two = bytes_of("V P 0121 00020300003230 02000000000000000a 003030 020000000000000014 0032300100");
    for room in 0..5 {
        let mut list = vec![(7, 7); room];
        let count = difference([&one, &two], b"A", 0, 30, &mut list).map_err(pair);
        if room < 2 {
            assert_eq!((count, list), (Err((15, 0)), vec![(7, 7); room]));
        } else {
            assert_eq!((count, list), (Ok(2), [vec![(0, 10), (20, 30)], vec![(7, 7); room - 2]].concat()));
        }
    }
}

#[test]
fn reading_14_8_names_by_their_bytes() {
    // A nameless zone, one named by its ID, and one named by the same bytes under another number.
    for other in ["V P 0103 000130", "V 0007 03014201410141 0104 01013002"] {
        assert_eq!(given("V P A", other, "A", FIRST, LAST), Ok(vec![]), "{other}");
    }
    assert_eq!(given("V P A", "V P 0104 00013001", "A", 3, 5), Ok(vec![(3, 5)]));
}

/// A file with one zone "A" of these intervals, and "B" for another name.
fn file_of(intervals: Vec<Interval>) -> Vec<u8> {
    let zone = Zone { id: 0, rest: Rest::Listed { intervals, end: Transition::EndOfTime, tail: None } };
    let data = zone.encode().expect("codes");
    let size = codes::encode_count(data.len() as i64).expect("a size");
    [bytes_of("V 0005 0201410142 01"), size, data].concat()
}

#[test]
fn every_tick_of_a_window() {
    let mut prng = Prng::new(141);
    let mut counts = BTreeSet::new();
    for _ in 0..400 {
        let files: Vec<Vec<u8>> = (0..2)
            .map(|_| {
                let mut intervals = Vec::new();
                let (mut start, mut at) = (Transition::StartOfTime, prng.range(-60, 60));
                for _ in 0..1 + prng.below(7) {
                    let (wall, savings) = (prng.range(0, 1) as i32, prng.range(0, 1) as i32);
                    intervals.push(Interval { start, name: prng.below(2), wall, savings });
                    start = Transition::Finite(at);
                    at += prng.range(1, 40);
                }
                file_of(intervals)
            })
            .collect();
        let (first, last) = (prng.range(-80, 80), prng.range(-80, 200));
        let shown = |file: &[u8], ticks: i64| {
            let answer = ask_all(file, b"A", ticks).expect("an answer");
            (answer.wall, answer.savings, file[answer.name].to_vec())
        };
        let differs: Vec<i64> = (first..last).filter(|t| shown(&files[0], *t) != shown(&files[1], *t)).collect();
        // Runs of ticks one behind another.
        let mut wanted: Vec<Stretch> = Vec::new();
        for ticks in differs {
            match wanted.last_mut() {
                Some(run) if run.1 == ticks => run.1 = ticks + 1,
                _ => wanted.push((ticks, ticks + 1)),
            }
        }
        counts.insert(wanted.len());
        assert_eq!(differences([&files[0], &files[1]], b"A", first, last), Ok(wanted));
    }
    assert!(counts.is_superset(&BTreeSet::from([0, 1, 2, 3])), "{counts:?}");
}

#[test]
fn stretches_are_those_of_the_questions() {
    let mut seen = BTreeSet::new();
    for seed in 110_000..110_400 {
        let (content, plan_one, mut prng) = generated(seed, Size::Small);
        let changed = changed_content(&content, &mut prng);
        let one = plan_one.bytes();
        let two = plan(&changed, &mut Forms::Any(&mut prng)).bytes();
        for (zone, other) in content.zones.iter().zip(&changed.zones) {
            let id = content.id(zone);
            // Bounds of both zones and their neighbours; a window among them.
            let mut asked: Vec<i64> = [instants(zone, &mut prng), instants(other, &mut prng)].concat();
            asked.sort_unstable();
            let from = prng.below(asked.len());
            let to = (from + prng.below(40)).min(asked.len() - 1);
            let (first, last) =
                if prng.one_in(4) { (FIRST, FIRST + 1_000_000_000_000_000) } else { (asked[from], asked[to]) };
            let stretches = differences([&one, &two], id, first, last).expect("two answers");
            let shown = |file: &[u8], ticks: i64| {
                let answer = ask_all(file, id, ticks).expect("an answer");
                (answer.wall, answer.savings, file[answer.name].to_vec())
            };
            let differs = |ticks: i64| shown(&one, ticks) != shown(&two, ticks);
            // In time order, none empty, none touching the next, all in the window.
            let bounds: Vec<i64> = stretches.iter().flat_map(|(first, end)| [*first, *end]).collect();
            assert!(bounds.windows(2).all(|pair| pair[0] < pair[1]), "{bounds:?}");
            assert!(bounds.iter().all(|bound| (first..=last).contains(bound)));
            // Each can't be made longer, and is different all along.
            for &(start, end) in &stretches {
                assert!(differs(start) && differs(end - 1) && differs(start + (end - start) / 2));
                assert!(start == first || !differs(start - 1));
                assert!(end == last || !differs(end));
            }
            for ticks in asked.into_iter().filter(|ticks| (first..last).contains(ticks)) {
                let inside = stretches.iter().any(|(start, end)| (*start..*end).contains(&ticks));
                assert_eq!(inside, differs(ticks), "seed {seed}, {ticks}");
                seen.insert(inside);
            }
        }
    }
    assert_eq!(seen.len(), 2);
}

#[test]
fn refusals_in_their_order() {
    let mut numbers = BTreeSet::new();
    for seed in 111_000..112_500 {
        let (content, whole, mut prng) = generated(seed, Size::Small);
        let mut any = || {
            let kind = *prng.pick(&Damage::ALL);
            if prng.one_in(2) {
                whole.bytes()
            } else {
                damaged(&whole, kind, &mut prng)
            }
        };
        let files = [any(), any()];
        let ids = content.zones.iter().map(|zone| content.id(zone)).chain([&b"No/Such_Zone"[..]]);
        for id in ids {
            let asked = [&files[0], &files[1]].map(|file| ask_all(file, id, 0));
            let mut list = [];
            let said = difference([&files[0], &files[1]], id, 0, 1, &mut list).map_err(pair);
            match asked {
                [Err(refusal), _] | [Ok(_), Err(refusal)] => assert_eq!(said, Err(pair(refusal))),
                [Ok(_), Ok(_)] => assert!(said == Ok(0) || said == Err((15, 0))),
            }
            numbers.insert(said.map_or_else(|(number, _)| number, |_| 0));
        }
    }
    assert!(numbers.is_superset(&BTreeSet::from([0, 2, 3, 4, 5, 6, 7, 8, 9, 10, 11, 12, 15])), "{numbers:?}");
}

#[test]
fn realistic_files_do_not_differ() {
    let read =
        |name: &str| std::fs::read(format!("{}/../data/{name}.nzd", env!("CARGO_MANIFEST_DIR"))).expect("a file");
    let (all, europe) = (read("all"), read("europe"));
    for zone in [&b"Europe/Oslo"[..], b"Europe/London", b"Europe/Istanbul"] {
        assert_eq!(differences([&all, &europe], zone, FIRST, LAST), Ok(vec![]));
    }
}
