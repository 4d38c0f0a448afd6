//! A zone found once answers as the file does.

use nzd::{
    ask, ffi, intervals, map_local, Bound, Edition, Error, Mark, Number, Zone, FIRST_INSTANT, LAST_INSTANT, ROW_NUMBERS,
};

const INSTANTS: [i64; 8] = [
    FIRST_INSTANT,
    -10_000_000_000_000_000,
    -1,
    0,
    6_353_376_000_000_000,
    17_118_468_000_000_000,
    40_000_000_000_000_000,
    LAST_INSTANT,
];

fn europe() -> Vec<u8> {
    std::fs::read(concat!(env!("CARGO_MANIFEST_DIR"), "/../tests/data/europe.nzd")).expect("europe.nzd")
}

/// The IDs of a file, by walking its fields: a zone's data start with the pool number of its ID.
fn ids(file: &[u8]) -> Vec<&[u8]> {
    let count = |at: &mut usize| {
        let (mut value, mut shift) = (0, 0);
        loop {
            let byte = file[*at];
            *at += 1;
            value |= usize::from(byte % 128) << shift;
            shift += 7;
            if byte < 128 {
                return value;
            }
        }
    };
    let (mut at, mut pool, mut ids) = (4, Vec::new(), Vec::new());
    while at < file.len() {
        let id = file[at];
        at += 1;
        let size = count(&mut at);
        let mut place = at;
        at += size;
        match id {
            0 => {
                for _ in 0..count(&mut place) {
                    let length = count(&mut place);
                    pool.push(&file[place..place + length]);
                    place += length;
                }
            }
            1 => ids.push(pool[count(&mut place)]),
            _ => {}
        }
    }
    ids
}

#[test]
fn every_zone_answers_as_the_file() {
    let file = europe();
    let ids = ids(&file);
    assert!(ids.len() > 20);
    for id in ids {
        let zone = Zone::find(&file, id).expect("a zone");
        for edition in [Edition::One, Edition::Two] {
            for ticks in INSTANTS {
                assert_eq!(zone.ask(ticks, edition), ask(&file, id, ticks, Mark::ThisIsAll, edition));
            }
            let out = Err(Error { number: Number::InstantOutOfRange, place: 0 });
            assert_eq!(zone.ask(LAST_INSTANT + 1, edition), out);
        }
        for ticks in INSTANTS {
            let answer = ask(&file, id, ticks, Mark::ThisIsAll, Edition::Two).expect("an answer");
            assert_eq!(zone.offset_at(ticks), Ok(answer.wall_offset_ms));
            assert_eq!(Ok(zone.map_local(ticks)), map_local(&file, id, ticks));
        }
        for edition in [Edition::One, Edition::Two] {
            let some = intervals(&file, id, 0, Mark::ThisIsAll, edition).take(100);
            assert!(zone.intervals(0, edition).take(100).eq(some));
        }
    }
}

#[test]
fn a_table_answers_as_the_zone() {
    let file = europe();
    for id in ids(&file) {
        let zone = Zone::find(&file, id).expect("a zone");
        for edition in [Edition::One, Edition::Two] {
            for rows in [1, 2, 3, 60, 400] {
                for from in [FIRST_INSTANT, 0] {
                    let mut room = vec![-7; rows * ROW_NUMBERS + 3];
                    let table = zone.table(from, edition, &mut room).expect("a table");
                    let count = table.count();
                    assert!(0 < count && count <= rows);
                    assert!(count == rows || table.end() == Bound::EndOfTime);
                    for ticks in INSTANTS {
                        assert_eq!(table.ask(ticks), zone.ask(ticks, edition));
                        assert_eq!(table.offset_at(ticks), zone.offset_at(ticks));
                    }
                    for at in zone.intervals(from, edition).take(count + 3) {
                        if let Bound::At(end) = at.expect("an interval").end {
                            assert_eq!(table.ask(end), zone.ask(end, edition));
                            assert_eq!(table.ask(end - 1), zone.ask(end - 1, edition));
                        }
                    }
                    let out = Err(Error { number: Number::InstantOutOfRange, place: 0 });
                    assert_eq!(table.ask(LAST_INSTANT + 1), out);
                    assert!(room[count * ROW_NUMBERS..].iter().all(|&number| number == -7));
                }
            }
        }
        let mut none = [-7; ROW_NUMBERS - 1];
        assert_eq!(zone.table(0, Edition::Two, &mut none).unwrap_err().number, Number::OutputTooShort);
        assert_eq!(zone.table(i64::MAX, Edition::Two, &mut none).unwrap_err().number, Number::InstantOutOfRange);
        assert_eq!(none, [-7; ROW_NUMBERS - 1]);
    }
}

#[test]
fn what_is_not_found_is_refused_as_the_question_is() {
    let file = europe();
    for length in [0, 3, 4, 5, 100, file.len() / 2, file.len() - 1, file.len()] {
        let part = &file[..length];
        for id in ["Europe/Oslo", "Europe/Zurich", "No/Such_Zone", ""] {
            let asked = ask(part, id, 0, Mark::ThisIsAll, Edition::Two);
            assert_eq!(Zone::find(part, id).and_then(|zone| zone.ask(0, Edition::Two)), asked);
        }
    }
}

#[test]
fn any_five_numbers_are_safe() {
    let file = europe();
    let length = file.len() as u64;
    let places = [0, 4, 5, 7, 100, length / 2, length - 1, length, length + 1, 4_194_305, 1 << 63, u64::MAX];
    for pool in places {
        for past in places {
            for start in places {
                for end in places {
                    let found = [-7; 7];
                    let mut out = found;
                    let result = ffi::ask_zone(&file, &[pool, past, start, end, start], 0, false, &mut out);
                    if result != 0 {
                        assert_eq!(out, found);
                        assert!(result / 256 <= 4_194_304);
                    } else {
                        assert!(out[3] >= 0 && out[4] >= 0 && (out[3] + out[4]) as u64 <= length);
                    }
                    // The first row of a table is what the question gives, refusals among them.
                    let (mut rows, mut count) = ([-7; 2 * ROW_NUMBERS], [-7]);
                    let listed =
                        ffi::list_answers(&file, &[pool, past, start, end, start], 0, false, &mut rows, &mut count);
                    assert_eq!((listed, rows[..ROW_NUMBERS] == out), (result, true));
                }
            }
        }
    }
}
