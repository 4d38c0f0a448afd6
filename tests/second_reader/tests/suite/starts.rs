//! 02, Ask 14: the table of interval starts, and the lookup by halving.

use crate::common::{ask_all, bytes_of, generated};
use second_reader::generate::{damaged, instants, Damage, Prng, Size};
use second_reader::starts::Found;
use second_reader::zone::Rest;
use second_reader::{find_start, interval_starts, Refusal, Transition};

fn pair(refusal: Refusal) -> (u8, u64) {
    (refusal.number.value(), refusal.place)
}

/// The table in a room of that many entries, all 7 before.
fn table(file: &[u8], zone: &[u8], room: usize) -> (Result<usize, (u8, u64)>, Vec<i64>) {
    let mut table = vec![7; room];
    (interval_starts(file, zone, &mut table).map_err(pair), table)
}

#[test]
fn readings_14_20_and_14_21() {
    let tail = bytes_of("V P 011d 00020100003030 020000000000000000 01 32 01 1c0a0132 02 1c030132 32");
    assert_eq!(table(&tail, b"A", 3), (Ok(1), vec![i64::MIN, 7, 7]));
    let fixed = bytes_of("V P A");
    assert_eq!(table(&fixed, b"A", 1), (Ok(1), vec![i64::MIN]));
    assert_eq!(table(&fixed, b"A", 0).0, Err((15, 0)));
    assert_eq!(table(&fixed, b"C", 0).0, Err((12, 19)));
    assert_eq!(table(&[], b"A", 0).0, Err((2, 0)));
    let two = bytes_of("V P 0115 00020200003030 02000000000000000a 013030 0100");
    assert_eq!(table(&two, b"A", 1), (Err((15, 0)), vec![7]));
    assert_eq!(table(&two, b"A", 2), (Ok(2), vec![i64::MIN, 10]));
}

#[test]
fn the_starts_are_those_of_the_content() {
    for seed in 130_000..130_600 {
        let (content, whole, mut prng) = generated(seed, Size::Any);
        let file = whole.bytes();
        for zone in &content.zones {
            let wanted: Vec<i64> = match &zone.rest {
                Rest::Fixed { .. } => vec![i64::MIN],
                Rest::Listed { intervals, .. } => {
                    let ticks =
                        |start: Transition| if let Transition::Finite(ticks) = start { ticks } else { i64::MIN };
                    intervals.iter().map(|interval| ticks(interval.start)).collect()
                }
            };
            let room = wanted.len() + prng.below(3);
            let filled = [wanted.clone(), vec![7; room - wanted.len()]].concat();
            assert_eq!(table(&file, content.id(zone), room), (Ok(wanted.len()), filled));
            let short = wanted.len() - 1;
            assert_eq!(table(&file, content.id(zone), short), (Err((15, 0)), vec![7; short]));
            // The entry found is the listed interval that holds the instant, or the last where the tail does.
            for ticks in instants(zone, &mut prng).into_iter().take(12) {
                let found = find_start(&wanted, ticks).expect("an entry").position;
                let start = ask_all(&file, content.id(zone), ticks).expect("an answer").start;
                let start = if let Transition::Finite(start) = start { start } else { i64::MIN };
                let listed = match &zone.rest {
                    Rest::Listed { end: Transition::Finite(end), tail: Some(_), .. } => ticks < *end,
                    _ => true,
                };
                assert_eq!(wanted[found], if listed { start } else { wanted[wanted.len() - 1] }, "seed {seed}");
            }
        }
    }
}

#[test]
fn refusals_are_those_of_the_question() {
    for seed in 131_000..132_000 {
        let (content, whole, mut prng) = generated(seed, Size::Small);
        let kind = *prng.pick(&Damage::ALL);
        let file = damaged(&whole, kind, &mut prng);
        for id in content.zones.iter().map(|zone| content.id(zone)).chain([&b"No/Such_Zone"[..]]) {
            match ask_all(&file, id, 0) {
                Ok(_) => assert!(table(&file, id, 4096).0.is_ok()),
                Err(refusal) => assert_eq!(table(&file, id, 0).0, Err(pair(refusal))),
            }
        }
    }
}

fn found(table: &[i64], instant: i64) -> (usize, u32) {
    let Found { position, looks } = find_start(table, instant).expect("an entry");
    (position, looks)
}

#[test]
fn reading_14_22_halving_to_the_letter() {
    assert_eq!(find_start(&[], 0).map_err(pair), Err((12, 0)));
    assert_eq!(found(&[5], 0), (0, 0));
    assert_eq!(found(&[5], 9), (0, 0));
    assert_eq!(found(&[1, 2, 3], 0), (0, 1));
    assert_eq!(found(&[1, 2, 3], 2), (1, 2));
    assert_eq!(found(&[9, 1, 9, 1], 5), (1, 2));
    assert_eq!(found(&[5, 5, 5, 5], 5), (3, 2));
    assert_eq!(found(&[i64::MIN, i64::MAX], i64::MAX), (1, 1));
    assert_eq!(found(&[i64::MIN, i64::MAX], i64::MIN), (0, 1));
}

/// The rule over places: which entries are left, and how many looks were taken.
fn by_places(table: &[i64], instant: i64, left: &[usize], looks: u32) -> (usize, u32) {
    if left.len() == 1 {
        return (left[0], looks);
    }
    let half = left.len() / 2;
    let kept = if table[left[half]] <= instant { &left[half..] } else { &left[..half] };
    by_places(table, instant, kept, looks + 1)
}

/// "the least k with 2 to the k not below n"
fn bound(count: usize) -> u32 {
    (0..).find(|k| 1usize << k >= count).expect("a power")
}

#[test]
fn every_small_table() {
    // All tables of up to six entries from 0 to 3, at every instant from -1 to 4.
    for count in 1..=6 {
        for table_number in 0..4u32.pow(count) {
            let table: Vec<i64> = (0..count).map(|place| i64::from(table_number / 4u32.pow(place) % 4)).collect();
            let places: Vec<usize> = (0..table.len()).collect();
            for instant in -1..=4 {
                let given = found(&table, instant);
                assert_eq!(given, by_places(&table, instant, &places, 0), "{table:?} {instant}");
                assert!(given.1 <= bound(table.len()));
                if table.is_sorted() && table[0] <= instant {
                    let last = table.iter().rposition(|entry| *entry <= instant);
                    assert_eq!(Some(given.0), last, "{table:?} {instant}");
                }
            }
        }
    }
}

#[test]
fn long_tables() {
    let mut prng = Prng::new(143);
    for _ in 0..2_000 {
        let most = if prng.one_in(10) { 5_000 } else { 70 };
        let count = 1 + prng.below(most);
        let mut table: Vec<i64> = (0..count).map(|_| prng.range(-1_000, 1_000)).collect();
        if !prng.one_in(3) {
            table.sort_unstable();
        }
        let places: Vec<usize> = (0..count).collect();
        for instant in [i64::MIN, -1_001, prng.range(-1_000, 1_000), i64::MAX] {
            let given = found(&table, instant);
            assert_eq!(given, by_places(&table, instant, &places, 0));
            assert!(given.1 <= bound(count));
            if table.is_sorted() && table[0] <= instant {
                assert_eq!(given.0, table.partition_point(|entry| *entry <= instant) - 1);
            }
        }
    }
    assert_eq!((bound(1), bound(2), bound(3), bound(4), bound(4096), bound(4097)), (0, 1, 2, 2, 12, 13));
}
