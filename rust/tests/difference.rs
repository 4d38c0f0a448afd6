//! Where two files differ: the worked cases of the readings, by the wrapper.

use nzd::{difference, Error, Number, Stretch, FIRST_INSTANT, LAST_INSTANT};

/// What the zone "A" of these files, behind the pool "A", "B", "C", is; "A" alone is a fixed zone at 0 with its ID for a name.
const A: &[u8] = b"\x01\x04\x00\x01\x30\x00";
const AN_HOUR_AHEAD: &[u8] = b"\x01\x04\x00\x01\x32\x00";
/// To tick 10 the offset differs from A's, to tick 20 the name, and then nothing.
const TO_20: &[u8] =
    b"\x01\x21\x00\x02\x03\x00\x00\x32\x30\x02\0\0\0\0\0\0\0\x0a\x01\x30\x30\x02\0\0\0\0\0\0\0\x14\x00\x30\x30\x01\x00";
/// The offset differs before tick 10 and from tick 20 on.
const TWICE: &[u8] =
    b"\x01\x21\x00\x02\x03\x00\x00\x32\x30\x02\0\0\0\0\0\0\0\x0a\x00\x30\x30\x02\0\0\0\0\0\0\0\x14\x00\x32\x30\x01\x00";

fn file(zone: &[u8]) -> Vec<u8> {
    [b"\0\0\0\0\x00\x07\x03\x01A\x01B\x01C", zone].concat()
}

/// First instants and ends, or number and place.
fn given(one: &[u8], two: &[u8], id: &str, first: i64, last: i64) -> Result<Vec<(i64, i64)>, (Number, usize)> {
    let mut list = [Stretch::default(); 4];
    let count = difference(one, two, id, first, last, &mut list).map_err(|error| (error.number, error.place))?;
    Ok(list[..count].iter().map(|stretch| (stretch.first, stretch.end)).collect())
}

#[test]
fn windows() {
    let (one, two) = (file(A), file(AN_HOUR_AHEAD));
    let out_of_range = Err((Number::InstantOutOfRange, 0));
    assert_eq!(given(&one, &two, "A", FIRST_INSTANT, LAST_INSTANT), Ok(vec![(FIRST_INSTANT, LAST_INSTANT)]));
    // "first in, last out; 14 if either is out of range": the last tick is in no window.
    assert_eq!(given(&one, &two, "A", LAST_INSTANT, LAST_INSTANT), Ok(vec![]));
    assert_eq!(given(&one, &two, "A", LAST_INSTANT, LAST_INSTANT + 1), out_of_range);
    assert_eq!(given(&one, &two, "A", FIRST_INSTANT - 1, 0), out_of_range);
    // Before the files' refusals.
    assert_eq!(given(&[], &[], "A", i64::MIN, 0), out_of_range);
    // Windows without an instant, after the files' refusals.
    for (first, last) in [(5, 5), (6, 5), (LAST_INSTANT, FIRST_INSTANT)] {
        assert_eq!(given(&one, &two, "A", first, last), Ok(vec![]));
        assert_eq!(given(&one, &two, "C", first, last), Err((Number::NotFound, 19)));
    }
}

#[test]
fn stretches() {
    let one = file(A);
    // It goes on where the kind of difference changes, and what is outside the window isn't seen.
    let two = file(TO_20);
    assert_eq!(given(&one, &two, "A", 0, 30), Ok(vec![(0, 20)]));
    assert_eq!(given(&two, &one, "A", 0, 30), Ok(vec![(0, 20)]));
    assert_eq!(given(&one, &two, "A", 5, 12), Ok(vec![(5, 12)]));
    assert_eq!(given(&one, &two, "A", 19, 30), Ok(vec![(19, 20)]));
    assert_eq!(given(&one, &two, "A", 20, 30), Ok(vec![]));
    let two = file(TWICE);
    assert_eq!(given(&one, &two, "A", 0, 30), Ok(vec![(0, 10), (20, 30)]));
    // Bounds of intervals aren't compared, nor are pool numbers; a zone without a name is named by its ID.
    for same in [
        file(b"\x01\x09\x00\x02\x01\x00\x00\x30\x30\x01\x00"),
        file(b"\x01\x03\x00\x01\x30"),
        b"\0\0\0\0\x00\x07\x03\x01B\x01A\x01A\x01\x04\x01\x01\x30\x02".to_vec(),
    ] {
        assert_eq!(given(&one, &same, "A", FIRST_INSTANT, LAST_INSTANT), Ok(vec![]));
    }
    assert_eq!(given(&one, &file(b"\x01\x04\x00\x01\x30\x01"), "A", 3, 5), Ok(vec![(3, 5)]));
}

#[test]
fn refusals() {
    let (none, one) = (file(b""), file(A));
    let (not_found, cut) = (Err((Number::NotFound, 13)), Err((Number::CutShort, 0)));
    assert_eq!(given(&none, &none, "A", 0, 1), not_found);
    assert_eq!(given(&one, &none, "A", 0, 1), not_found);
    assert_eq!(given(&none, &one, "A", 0, 1), not_found);
    assert_eq!(given(&none, &[], "A", 0, 1), not_found);
    assert_eq!(given(&[], &none, "A", 0, 1), cut);
    assert_eq!(given(&one, &[], "A", 0, 1), cut);
    // A question doesn't look behind the zone.
    assert_eq!(given(&one, &[&file(AN_HOUR_AHEAD)[..], b"\0"].concat(), "A", 0, 1), Ok(vec![(0, 1)]));
}

#[test]
fn room() {
    let (one, two) = (file(A), file(TWICE));
    let found = Stretch { first: 7, end: 7 };
    for room in 0..5 {
        let mut list = vec![found; room];
        let count = difference(&one, &two, "A", 0, 30, &mut list);
        let stretches = [Stretch { first: 0, end: 10 }, Stretch { first: 20, end: 30 }];
        if room < 2 {
            let short = Err(Error { number: Number::OutputTooShort, place: 0 });
            assert_eq!((count, list), (short, vec![found; room]));
        } else {
            assert_eq!((count, list), (Ok(2), [&stretches[..], &vec![found; room - 2]].concat()));
        }
    }
    // Where nothing differs no room is needed.
    assert_eq!(difference(&one, &one, b"A", 0, 30, &mut []), Ok(0));
}

#[test]
fn the_realistic_files() {
    let read =
        |name: &str| std::fs::read(format!("{}/../tests/data/{name}.nzd", env!("CARGO_MANIFEST_DIR"))).expect("a file");
    let (all, europe) = (read("all"), read("europe"));
    for zone in ["Europe/Oslo", "Europe/London", "Europe/Istanbul"] {
        assert_eq!(given(&all, &europe, zone, FIRST_INSTANT, LAST_INSTANT), Ok(vec![]));
    }
    // Every zone of Oslo's rules with savings of 30 minutes: summer time, which begins at 01:00Z, ends at 03:00 on the wall, which
    // is 01:30Z then.
    let rule = b"\x3c\x03\x01\x34\x32";
    let mut other = europe.clone();
    let places: Vec<usize> = (0..other.len()).filter(|&place| other[place..].starts_with(rule)).collect();
    for place in places {
        other[place + 4] = 0x31;
    }
    let [first, last] = [1_704_067_200, 1_767_225_600].map(nzd::ticks_of_unix_seconds);
    let summers = [(1_711_846_800, 1_729_992_600), (1_743_296_400, 1_761_442_200)];
    let summers = summers.map(|(first, end)| (nzd::ticks_of_unix_seconds(first), nzd::ticks_of_unix_seconds(end)));
    assert_eq!(given(&europe, &other, "Europe/Oslo", first, last), Ok(summers.to_vec()));
}
