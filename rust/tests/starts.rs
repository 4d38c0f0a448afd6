//! Tables of interval starts and the search in one: the worked cases of the readings, by the wrapper.

use nzd::{ask, find_start, interval_starts, Bound, Edition, Error, Mark, Number, Search};

/// The pool "A", "B", "C", to be followed by a zone.
const POOL: &[u8] = b"\0\0\0\0\x00\x07\x03\x01A\x01B\x01C";

/// The result in a table of that length, all 7 before, and the table.
fn table(zone: &[u8], id: &str, room: usize) -> (Result<usize, (Number, usize)>, Vec<i64>) {
    let mut table = vec![7; room];
    let file = [POOL, zone].concat();
    let count = interval_starts(&file, id, &mut table).map_err(|Error { number, place }| (number, place));
    (count, table)
}

#[test]
fn listed_starts() {
    let fixed = b"\x01\x04\x00\x01\x30\x00";
    let short = || Err((Number::OutputTooShort, 0));
    assert_eq!(table(fixed, "A", 1), (Ok(1), vec![i64::MIN]));
    assert_eq!(table(fixed, "A", 0), (short(), vec![]));
    // The question's refusals come first.
    assert_eq!(table(fixed, "C", 0), (Err((Number::NotFound, 19)), vec![]));
    assert_eq!(table(&fixed[..5], "A", 1), (Err((Number::CutShort, 13)), vec![7]));
    // A tail's start is none.
    let tail =
        b"\x01\x1d\x00\x02\x01\x00\x00\x30\x30\x02\0\0\0\0\0\0\0\0\x01\x32\x01\x1c\x0a\x01\x32\x02\x1c\x03\x01\x32\x32";
    assert_eq!(table(tail, "A", 3), (Ok(1), vec![i64::MIN, 7, 7]));
    let two = b"\x01\x15\x00\x02\x02\x00\x00\x30\x30\x02\0\0\0\0\0\0\0\x0a\x01\x30\x30\x01\x00";
    assert_eq!(table(two, "A", 1), (short(), vec![7]));
    assert_eq!(table(two, "A", 2), (Ok(2), vec![i64::MIN, 10]));
    assert_eq!(interval_starts(&[], "A", &mut []), Err(Error { number: Number::CutShort, place: 0 }));
}

#[test]
fn halving() {
    let found = |table: &[i64], instant| find_start(table, instant).map(|Search { entry, looks }| (entry, looks));
    assert_eq!(found(&[], 0), Err(Error { number: Number::NotFound, place: 0 }));
    for (table, instant, entry, looks) in [
        (&[5][..], 0, 0, 0),
        (&[5], 9, 0, 0),
        (&[1, 2, 3], 0, 0, 1),
        (&[1, 2, 3], 2, 1, 2),
        (&[9, 1, 9, 1], 5, 1, 2),
        (&[5, 5, 5, 5], 5, 3, 2),
        (&[i64::MIN, i64::MAX], i64::MAX, 1, 1),
        (&[i64::MIN, i64::MAX], i64::MIN, 0, 1),
    ] {
        assert_eq!(found(table, instant), Ok((entry, looks)), "{table:?} at {instant}");
    }
}

#[test]
fn a_table_gives_the_start_that_the_question_gives() {
    let file = std::fs::read(concat!(env!("CARGO_MANIFEST_DIR"), "/../tests/data/europe.nzd")).expect("europe.nzd");
    let mut table = [0; 4096];
    let count = interval_starts(&file, "Europe/Oslo", &mut table).expect("starts");
    let table = &table[..count];
    assert!(table.is_sorted() && table[0] == i64::MIN);
    for (number, &start) in table.iter().enumerate().skip(1) {
        for (ticks, entry) in [(start - 1, number - 1), (start, number), (start + 1, number)] {
            let found = find_start(table, ticks).expect("an entry");
            assert_eq!(found.entry, entry);
            // "at most the least k with 2 to the k not below n"
            assert!(1 << found.looks < 2 * count);
            let said = ask(&file, "Europe/Oslo", ticks, Mark::ThisIsAll, Edition::Two).expect("an answer").start;
            assert_eq!(said, if entry == 0 { Bound::StartOfTime } else { Bound::At(table[entry]) });
        }
    }
}
