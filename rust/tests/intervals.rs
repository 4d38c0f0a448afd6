//! The intervals of a zone from first to last.

use nzd::{ask, intervals, Answer, Bound, Edition, Error, Mark, Number, FIRST_INSTANT, LAST_INSTANT};
use Bound::{At, EndOfTime, StartOfTime};

/// The pool "F", "L", "A", "N", "S", "D", and a zone of each of the first four: a fixed zone; a list, whose second interval
/// starts with year 1; a tail from 9998 on whose rules alternate; and one from 9996-12-30 on whose rules don't.
const ZONES: &[u8] = b"\0\0\0\0\x00\x0d\x06\x01F\x01L\x01A\x01N\x01S\x01D\
    \x01\x04\x00\x01\x30\x04\
    \x01\x1c\x01\x02\x03\x00\x04\x32\x30\x02\xf7\x60\x80\x0a\x08\x4a\x80\x00\x05\x34\x32\xe0\x9b\xd1\x2a\x04\x32\x30\x01\x00\
    \x01\x1d\x02\x02\x01\x00\x04\x32\x30\x02\x23\x28\x6a\xdd\x0a\xf4\x40\x00\x01\x32\x04\x1c\x0a\x01\x32\x05\x1c\x03\x01\x32\x32\
    \x01\x1d\x03\x02\x01\x00\x04\x32\x30\x02\x23\x27\x4a\x79\x3d\x5a\x00\x00\x01\x32\x04\x1e\x0c\x3a\x30\x05\x00\x01\x02\x30\x32";

/// All intervals of a zone that hold an instant.
fn all<'a>(file: &'a [u8], id: &str, mark: Mark) -> Vec<Answer<'a>> {
    intervals(file, id, FIRST_INSTANT, mark, Edition::Two).collect::<Result<_, _>>().expect("answers")
}

/// Names and ends; an end in Unix seconds.
fn met(id: &str) -> Vec<(&str, i64)> {
    let end = |end| match end {
        At(ticks) => ticks / nzd::TICKS_PER_SECOND,
        _ => i64::MAX,
    };
    all(ZONES, id, Mark::MoreMayCome).iter().map(|answer| (answer.name_str(), end(answer.end))).collect()
}

#[test]
fn from_first_to_last() {
    assert_eq!(met("F"), [("S", i64::MAX)]);
    // Noda Time 1.x shows the ID of a fixed zone.
    let first = intervals(ZONES, "F", FIRST_INSTANT, Mark::ThisIsAll, Edition::One).next().expect("an interval");
    assert_eq!(first.map(|interval| (interval.name_str(), interval.end)), Ok(("F", EndOfTime)));
    // What ends with year 1 holds no instant.
    assert_eq!(met("L"), [("D", 0), ("S", i64::MAX)]);
    let changes = [("S", 253_346_749_200), ("D", 253_364_893_200), ("S", 253_378_198_800), ("D", 253_396_947_600)];
    assert_eq!(met("A"), [&[("S", 253_339_228_800)], &changes[..], &[("S", i64::MAX)]].concat());
    // Daylight saving starts twice in a row, on 9997-01-01 and on 9998-01-01.
    let changes = [
        ("S", 253_307_520_000),
        ("S", 253_307_692_800),
        ("S", 253_339_228_800),
        ("D", 253_339_488_000),
        ("S", 253_370_764_800),
        ("D", 253_370_937_600),
        ("S", i64::MAX),
    ];
    assert_eq!(met("N"), changes);
}

#[test]
fn no_gap() {
    for id in ["F", "L", "A", "N"] {
        let all = all(ZONES, id, Mark::ThisIsAll);
        assert!(all[0].start <= At(FIRST_INSTANT) && all[all.len() - 1].end == EndOfTime);
        assert!(all.windows(2).all(|pair| pair[0].end == pair[1].start && pair[0].end < pair[1].end));
        for interval in &all {
            let first = if let At(start) = interval.start { start } else { FIRST_INSTANT };
            let last = if let At(end) = interval.end { end - 1 } else { LAST_INSTANT };
            for ticks in [first, first + (last - first) / 2, last] {
                assert_eq!(ask(ZONES, id, ticks, Mark::MoreMayCome, Edition::Two).as_ref(), Ok(interval));
            }
        }
    }
    let europe = std::fs::read(concat!(env!("CARGO_MANIFEST_DIR"), "/../tests/data/europe.nzd")).expect("europe.nzd");
    let oslo = all(&europe, "Europe/Oslo", Mark::ThisIsAll);
    assert_eq!((oslo[0].start, oslo[0].name_str()), (StartOfTime, "LMT"));
    // Two a year from 1996 on.
    assert!(oslo.len() > 2 * (9999 - 1996));
}

#[test]
fn from_an_instant_and_refused() {
    // The last tick of "D", and what follows.
    let later: Vec<_> = intervals(ZONES, b"L", -1, Mark::ThisIsAll, Edition::Two)
        .map(|found| found.map(|found| found.name_str()))
        .collect();
    assert_eq!(later, [Ok("D"), Ok("S")]);
    let refused = |number, place| vec![Err(Error { number, place })];
    let from = |file, id: &str, ticks| intervals(file, id, ticks, Mark::ThisIsAll, Edition::Two).collect::<Vec<_>>();
    assert_eq!(from(ZONES, "S", 0), refused(Number::NotFound, 117));
    assert_eq!(from(ZONES, "F", LAST_INSTANT + 1), refused(Number::InstantOutOfRange, 0));
    assert_eq!(from(&ZONES[..116], "N", 0), refused(Number::CutShort, 86));
    assert_eq!(from(&ZONES[..116], "A", LAST_INSTANT).len(), 1);
}
