//! The replay of a trace: the worked cases of the readings, by the wrapper.

use nzd::{replay, Error, Number};

/// The pool "A", "B", "C" and a fixed zone "A" at 0.
const FILE: &[u8] = b"\0\0\0\0\x00\x07\x03\x01A\x01B\x01C\x01\x04\x00\x01\x30\x00";
const BAD: Result<Option<u64>, Error> = Err(Error { number: Number::BadTrace, place: 0 });

fn header(numbers: [u32; 4]) -> Vec<u8> {
    numbers.map(u32::to_be_bytes).concat()
}

fn record(instant: i64, start: u32, length: u32, shown: i32) -> Vec<u8> {
    [&instant.to_be_bytes()[..], &start.to_be_bytes(), &length.to_be_bytes(), &shown.to_be_bytes()].concat()
}

/// A trace of one record, with the names "A".
fn one(instant: i64, start: u32, length: u32, shown: i32) -> Vec<u8> {
    [header([1, 16, 1, 36]), record(instant, start, length, shown), b"A".to_vec()].concat()
}

#[test]
fn parts_that_leave_the_trace() {
    assert_eq!(replay(FILE, &header([0, 16, 0, 16])), Ok(None));
    assert_eq!(replay(FILE, &header([0, 0, 0, 0])), Ok(None));
    for numbers in [[0, 17, 0, 16], [0, 16, 0, 17], [0, 16, 1, 16], [1, 16, 0, 0]] {
        assert_eq!(replay(FILE, &header(numbers)), BAD, "{numbers:?}");
    }
    assert_eq!(replay(FILE, &header([0, 0, 0, 0])[..15]), BAD);
    // 20 times this is 4 in 32 bits.
    assert_eq!(replay(FILE, &[header([0xcccc_cccd, 0, 0, 0]), vec![0; 64]].concat()), BAD);
    // Names: "start or end past the length, even when empty".
    for (start, length) in [(2, 0), (1, 1), (0, 2), (u32::MAX, 1), (0, u32::MAX)] {
        assert_eq!(replay(FILE, &one(0, start, length, 0)), BAD);
    }
    // Before a record that is wrong, and without a look at the file.
    let late = [header([2, 16, 1, 56]), record(0, 0, 1, 9), record(0, 0, 2, 0), b"A".to_vec()].concat();
    assert_eq!(replay(FILE, &late), BAD);
    assert_eq!(replay(&[], &[]), BAD);
    assert_eq!(replay(&[], &header([0, 16, 0, 16])), Ok(None));
    // Parts may overlap: a record whose instant's last byte is its own name.
    assert_eq!(replay(FILE, &[header([1, 16, 8, 16]), record(0x41, 7, 1, 0)].concat()), Ok(None));
}

#[test]
fn the_first_record_that_is_wrong() {
    assert_eq!(replay(FILE, &one(0, 0, 1, 0)), Ok(None));
    assert_eq!(replay(FILE, &one(0, 0, 1, 1)), Ok(Some(0)));
    let three = |last| {
        let records = [record(0, 0, 1, 0), record(5, 0, 1, 0), record(-5, 0, 1, last)].concat();
        [header([3, 17, 1, 16]), b"A".to_vec(), records].concat()
    };
    assert_eq!(replay(FILE, &three(0)), Ok(None));
    assert_eq!(replay(FILE, &three(-1)), Ok(Some(2)));
    // Questions that are refused: 14, 12 of the empty ID, of a file without the zone and of a name that isn't UTF-8, a damaged file's.
    assert_eq!(replay(FILE, &one(i64::MIN, 0, 1, 0)), Ok(Some(0)));
    assert_eq!(replay(FILE, &one(0, 1, 0, 0)), Ok(Some(0)));
    assert_eq!(replay(&FILE[..13], &one(0, 0, 1, 0)), Ok(Some(0)));
    assert_eq!(replay(FILE, &[header([1, 16, 1, 36]), record(0, 0, 1, 0), vec![0xff]].concat()), Ok(Some(0)));
    assert_eq!(replay(&FILE[..18], &one(0, 0, 1, 0)), Ok(Some(0)));
    // An offset below 0, in whole seconds.
    let west = [&FILE[..13], b"\x01\x06\x00\x01\xa1\x51\x35\x00"].concat();
    assert_eq!(replay(&west, &one(0, 0, 1, -75_000)), Ok(None));
    assert_eq!(replay(&west, &one(0, 0, 1, 75_000)), Ok(Some(0)));
}
