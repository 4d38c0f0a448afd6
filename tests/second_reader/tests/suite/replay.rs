//! 02, Ask 14: the replay of a phone's trace.

use crate::common::{ask_all, bytes_of, generated, hex};
use second_reader::generate::{damaged, damaged_trace, Damage, Prng, Record, Size, Trace};
use second_reader::replay;
use std::collections::BTreeSet;

/// A header, from its four numbers.
fn header(numbers: [u32; 4]) -> Vec<u8> {
    numbers.map(u32::to_be_bytes).concat()
}

fn given(file: &[u8], trace: &[u8]) -> Result<Option<u32>, (u8, u64)> {
    replay(file, trace).map_err(|refusal| (refusal.number.value(), refusal.place))
}

/// One record for the name at `start`, of a trace with the name "A".
fn one(instant: i64, start: u32, length: u32, shown: i32) -> Vec<u8> {
    let record = Record { instant, start, length, shown };
    [header([1, 16, 1, 36]), record.bytes(), b"A".to_vec()].concat()
}

#[test]
fn readings_14_10_to_14_17() {
    let file = bytes_of("V P A");
    // A zone without records at the trace's end, and behind it.
    assert_eq!(given(&file, &header([0, 16, 0, 16])), Ok(None));
    assert_eq!(given(&file, &header([0, 17, 0, 16])), Err((21, 0)));
    assert_eq!(given(&file, &header([0, 16, 0, 17])), Err((21, 0)));
    assert_eq!(given(&file, &header([0, 0, 0, 0])), Ok(None));
    assert_eq!(given(&file, &header([0, 0, 0, 0])[..15]), Err((21, 0)));
    assert_eq!(given(&file, &header([0, 16, 1, 16])), Err((21, 0)));
    assert_eq!(given(&file, &header([1, 16, 0, 0])), Err((21, 0)));
    // Right and wrong.
    assert_eq!(given(&file, &one(0, 0, 1, 0)), Ok(None));
    assert_eq!(given(&file, &one(0, 0, 1, 1)), Ok(Some(0)));
    // A name of length 0: at 2 it leaves the names, at 1 it is the empty ID.
    assert_eq!(given(&file, &one(0, 2, 0, 0)), Err((21, 0)));
    assert_eq!(given(&file, &one(0, 1, 0, 0)), Ok(Some(0)));
    assert_eq!(given(&file, &one(0, 1, 1, 0)), Err((21, 0)));
    assert_eq!(given(&file, &one(0, 0, 2, 0)), Err((21, 0)));
    assert_eq!(given(&file, &one(0, u32::MAX, 1, 0)), Err((21, 0)));
    assert_eq!(given(&file, &one(0, 0, u32::MAX, 0)), Err((21, 0)));
    // All records are looked at first: record 0 shows a wrong offset, record 1's name is too long.
    let records =
        [Record { instant: 0, start: 0, length: 1, shown: 9 }, Record { instant: 0, start: 0, length: 2, shown: 0 }];
    let two = [header([2, 16, 1, 56]), records[0].bytes(), records[1].bytes(), b"A".to_vec()].concat();
    assert_eq!(given(&file, &two), Err((21, 0)));
    // A question that the file refuses: 14, 12, a damaged file's.
    assert_eq!(given(&file, &one(i64::MIN, 0, 1, 0)), Ok(Some(0)));
    assert_eq!(given(&bytes_of("V P"), &one(0, 0, 1, 0)), Ok(Some(0)));
    assert_eq!(given(&bytes_of("V P 0104 00016000"), &one(0, 0, 1, 0)), Ok(Some(0)));
    // No record: none, whatever the file.
    assert_eq!(given(&[], &header([0, 16, 0, 16])), Ok(None));
    assert_eq!(given(&[], &[]), Err((21, 0)));
    // Parts may overlap each other and the header; the count times 20 doesn't wrap.
    assert_eq!(given(&file, &[hex("00000000 00000000 00000010 00000000"), vec![]].concat()), Ok(None));
    assert_eq!(given(&file, &[header([0xcccc_cccd, 0, 0, 0]), vec![0; 64]].concat()), Err((21, 0)));
    // A record whose instant's last byte is its own name, "A".
    let overlapping =
        [header([1, 16, 8, 16]), Record { instant: 0x41, start: 7, length: 1, shown: 0 }.bytes()].concat();
    assert_eq!(given(&file, &overlapping), Ok(None));
    // An offset below 0, and a name that isn't UTF-8.
    let west = bytes_of("V P 0106 0001a1513500");
    assert_eq!(given(&west, &one(0, 0, 1, -75_000)), Ok(None));
    assert_eq!(given(&west, &one(0, 0, 1, 75_000)), Ok(Some(0)));
    let strange =
        [header([1, 16, 1, 36]), Record { instant: 0, start: 0, length: 1, shown: 0 }.bytes(), vec![0xff]].concat();
    assert_eq!(given(&file, &strange), Ok(Some(0)));
}

/// The first record that is wrong, by asking for each.
fn by_asking(file: &[u8], trace: &Trace) -> Option<u32> {
    let wrong = trace.records.iter().position(|record| {
        let name = &trace.names[record.start as usize..(record.start + record.length) as usize];
        ask_all(file, name, record.instant).map(|answer| answer.wall) != Ok(record.shown)
    });
    wrong.map(|number| number as u32)
}

#[test]
fn the_first_wrong_record() {
    let mut seen = BTreeSet::new();
    for seed in 120_000..121_500 {
        let (content, whole, mut prng) = generated(seed, Size::Small);
        let kind = *prng.pick(&Damage::ALL);
        let bad = damaged(&whole, kind, &mut prng);
        let good = whole.bytes();
        let trace = Trace::random(&content, &good, &mut prng);
        let bytes = trace.bytes(&mut prng);
        for file in [&good, &bad] {
            let wanted = by_asking(file, &trace);
            assert_eq!(given(file, &bytes), Ok(wanted), "seed {seed}");
            seen.insert(wanted);
        }
    }
    assert!(seen.is_superset(&BTreeSet::from([None, Some(0), Some(1), Some(3)])), "{seen:?}");
}

/// Whether a part leaves `length` bytes.
fn leaves(start: u32, count: u64, length: usize) -> bool {
    u64::from(start) > length as u64 || u64::from(start) + count > length as u64
}

#[test]
fn number_21_exactly_if_a_part_leaves() {
    let mut counts = [0, 0];
    for seed in 122_000..126_000 {
        let (content, whole, mut prng) = generated(seed, Size::Small);
        let file = whole.bytes();
        let trace = Trace::random(&content, &file, &mut prng).bytes(&mut prng);
        let bytes = damaged_trace(&trace, &mut prng);
        let number = |at: usize| u32::from_be_bytes(bytes[at..at + 4].try_into().expect("four bytes"));
        let bad = bytes.len() < 16
            || leaves(number(4), u64::from(number(0)) * 20, bytes.len())
            || leaves(number(12), u64::from(number(8)), bytes.len())
            || (0..number(0) as usize).any(|record| {
                let at = number(4) as usize + record * 20;
                leaves(number(at + 8), u64::from(number(at + 12)), number(8) as usize)
            });
        counts[usize::from(bad)] += 1;
        assert_eq!(given(&file, &bytes) == Err((21, 0)), bad, "seed {seed}");
    }
    assert!(counts[0] > 300 && counts[1] > 300, "{counts:?}");
}

#[test]
fn any_bytes_get_an_answer() {
    let mut prng = Prng::new(142);
    let file = bytes_of("V P A");
    for _ in 0..50_000 {
        let count = prng.below(80);
        let mut trace = prng.bytes(count);
        for byte in &mut trace {
            *byte = if prng.one_in(4) { *byte % 40 } else { 0 };
        }
        assert!(
            given(&file, &trace).is_ok_and(|record| record.is_none_or(|number| number < 80))
                || given(&file, &trace) == Err((21, 0))
        );
    }
}
