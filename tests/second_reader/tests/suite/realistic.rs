//! The realistic files, against transitions worked out by hand from public knowledge of four zones.

use crate::common::{ask_all, utc};
use second_reader::file::read_file;
use second_reader::zone::Rest;
use second_reader::{check, rewrite, version_text, Transition};

const ALL: &str = concat!(env!("CARGO_MANIFEST_DIR"), "/../data/all.nzd");
const EUROPE: &str = concat!(env!("CARGO_MANIFEST_DIR"), "/../data/europe.nzd");

fn read(path: &str) -> Vec<u8> {
    std::fs::read(path).expect("a realistic file")
}

const MINUTE: i32 = 60_000;
const HOUR: i32 = 60 * MINUTE;

/// At `ticks` an interval starts that has this wall offset and name, and one ends that had those before.
fn changes(file: &[u8], zone: &str, ticks: i64, before: (i32, &str), after: (i32, &str)) {
    let at = |instant: i64| ask_all(file, zone.as_bytes(), instant).expect("an answer");
    let (old, new) = (at(ticks - 1), at(ticks));
    let name = |part: std::ops::Range<usize>| String::from_utf8_lossy(&file[part]).to_string();
    assert_eq!((old.wall, name(old.name).as_str()), before, "{zone} before {ticks}");
    assert_eq!((new.wall, name(new.name).as_str()), after, "{zone} at {ticks}");
    assert_eq!((old.end, new.start), (Transition::Finite(ticks), Transition::Finite(ticks)));
    assert_eq!(at(ticks + 1), at(ticks));
}

#[test]
fn well_formed_and_in_preferred_form() {
    for (path, zones, length) in [(ALL, 447, 136_221), (EUROPE, 53, 23_990)] {
        let file = read(path);
        assert_eq!(file.len(), length);
        assert_eq!(check(&file), (0, 0), "{path}");
        assert_eq!(read_file(&file).expect("well formed").zones.len(), zones);
        let mut out = vec![0; length];
        assert_eq!(rewrite(&file, &mut out), Ok(length));
        assert!(out == file, "{path} is in preferred form");
        assert_eq!(version_text(&file).map(|part| &file[part]), Ok(&b"2025b"[..]));
    }
}

#[test]
fn what_they_hold() {
    // The numbers in the README beside the files.
    let file = read(ALL);
    let contents = read_file(&file).expect("well formed");
    let (mut fixed, mut listed, mut tails, mut intervals) = (0, 0, 0, 0);
    for (_, zone) in &contents.zones {
        match &zone.rest {
            Rest::Fixed { .. } => fixed += 1,
            Rest::Listed { intervals: list, tail, .. } => {
                intervals += list.len();
                *(if tail.is_some() { &mut tails } else { &mut listed }) += 1;
            }
        }
    }
    assert_eq!((fixed, listed, tails, intervals, contents.pool.len()), (32, 286, 129, 19_148, 1488));
    assert_eq!(contents.aliases.map(|pairs| pairs.len()), Some(151));
    assert_eq!((contents.locations.len(), contents.locations_1970.len()), (418, 312));
    let europe = read(EUROPE);
    let contents = read_file(&europe).expect("well formed");
    assert_eq!((contents.locations.len(), contents.locations_1970.len()), (52, 38));
    for (_, zone) in &contents.zones {
        let id = &europe[contents.pool[zone.id].clone()];
        assert!(id.starts_with(b"Europe/") || id == b"Etc/UTC", "{}", String::from_utf8_lossy(id));
    }
}

#[test]
fn oslo() {
    let (cet, cest) = ((HOUR, "CET"), (2 * HOUR, "CEST"));
    for path in [ALL, EUROPE] {
        let file = read(path);
        let to_summer = |ticks: i64| changes(&file, "Europe/Oslo", ticks, cet, cest);
        let to_winter = |ticks: i64| changes(&file, "Europe/Oslo", ticks, cest, cet);
        // Local mean time, +00:43, until 1895-01-01 00:00.
        changes(&file, "Europe/Oslo", utc(1894, 12, 31, 23, 17, 0), (43 * MINUTE, "LMT"), cet);
        // Last Sundays of March and September, of October from 1996 on, always at 01:00 UTC.
        to_summer(utc(1995, 3, 26, 1, 0, 0));
        to_winter(utc(1995, 9, 24, 1, 0, 0));
        to_summer(utc(1996, 3, 31, 1, 0, 0));
        to_winter(utc(1996, 10, 27, 1, 0, 0));
        to_summer(utc(2024, 3, 31, 1, 0, 0));
        to_winter(utc(2024, 10, 27, 1, 0, 0));
        to_summer(utc(2025, 3, 30, 1, 0, 0));
        to_winter(utc(2025, 10, 26, 1, 0, 0));
        to_summer(utc(2037, 3, 29, 1, 0, 0));
        to_winter(utc(2037, 10, 25, 1, 0, 0));
        to_summer(utc(2100, 3, 28, 1, 0, 0));
        to_winter(utc(2100, 10, 31, 1, 0, 0));
    }
}

#[test]
fn new_york() {
    let file = read(ALL);
    let (est, edt) = ((-5 * HOUR, "EST"), (-4 * HOUR, "EDT"));
    let to_summer = |ticks: i64| changes(&file, "America/New_York", ticks, est, edt);
    let to_winter = |ticks: i64| changes(&file, "America/New_York", ticks, edt, est);
    // Local mean time, -04:56:02, until railway noon of 1883-11-18.
    let lmt = -(4 * HOUR + 56 * MINUTE + 2_000);
    changes(&file, "America/New_York", utc(1883, 11, 18, 17, 0, 0), (lmt, "LMT"), est);
    // War time, 1942 to 1945, renamed at the peace.
    changes(&file, "America/New_York", utc(1942, 2, 9, 7, 0, 0), est, (-4 * HOUR, "EWT"));
    changes(&file, "America/New_York", utc(1945, 8, 14, 23, 0, 0), (-4 * HOUR, "EWT"), (-4 * HOUR, "EPT"));
    changes(&file, "America/New_York", utc(1945, 9, 30, 6, 0, 0), (-4 * HOUR, "EPT"), est);
    // The energy crisis: 6 January 1974.
    to_summer(utc(1974, 1, 6, 7, 0, 0));
    // First Sunday of April and last of October until 2006, then second of March and first of November.
    to_summer(utc(2006, 4, 2, 7, 0, 0));
    to_winter(utc(2006, 10, 29, 6, 0, 0));
    to_summer(utc(2007, 3, 11, 7, 0, 0));
    to_winter(utc(2007, 11, 4, 6, 0, 0));
    to_summer(utc(2024, 3, 10, 7, 0, 0));
    to_winter(utc(2024, 11, 3, 6, 0, 0));
    // 2100 begins on a Friday: 14 March and 7 November are Sundays.
    to_summer(utc(2100, 3, 14, 7, 0, 0));
    to_winter(utc(2100, 11, 7, 6, 0, 0));
}

#[test]
fn lord_howe() {
    let file = read(ALL);
    let half = 30 * MINUTE;
    let (standard, daylight) = ((10 * HOUR + half, "+1030"), (11 * HOUR, "+11"));
    let to_summer = |ticks: i64| changes(&file, "Australia/Lord_Howe", ticks, standard, daylight);
    let to_winter = |ticks: i64| changes(&file, "Australia/Lord_Howe", ticks, daylight, standard);
    // From +10 to +10:30 at the start of 1981-03-01.
    changes(&file, "Australia/Lord_Howe", utc(1981, 2, 28, 14, 0, 0), (10 * HOUR, "AEST"), standard);
    // The Sydney Olympics: from the last Sunday of August 2000.
    to_summer(utc(2000, 8, 26, 15, 30, 0));
    // Half an hour, first Sunday of October to first Sunday of April since 2008, 02:00 wall both times.
    to_winter(utc(2008, 4, 5, 15, 0, 0));
    to_summer(utc(2008, 10, 4, 15, 30, 0));
    to_winter(utc(2024, 4, 6, 15, 0, 0));
    to_summer(utc(2024, 10, 5, 15, 30, 0));
    // 4 April 2100 and 3 October 2100 are Sundays.
    to_winter(utc(2100, 4, 3, 15, 0, 0));
    to_summer(utc(2100, 10, 2, 15, 30, 0));
    let answer = ask_all(&file, b"Australia/Lord_Howe", utc(2024, 12, 1, 0, 0, 0)).expect("an answer");
    assert_eq!(answer.savings, half);
}

#[test]
fn apia() {
    let file = read(ALL);
    let change =
        |ticks: i64, before: (i32, &str), after: (i32, &str)| changes(&file, "Pacific/Apia", ticks, before, after);
    // The day that was held twice, 4 July 1892: +12:33:04 to -11:26:56.
    let lmt = 11 * HOUR + 26 * MINUTE + 56_000;
    change(utc(1892, 7, 4, 11, 26, 56), (24 * HOUR - lmt, "LMT"), (-lmt, "LMT"));
    change(utc(1911, 1, 1, 11, 26, 56), (-lmt, "LMT"), (-11 * HOUR - 30 * MINUTE, "-1130"));
    change(utc(1950, 1, 1, 11, 30, 0), (-11 * HOUR - 30 * MINUTE, "-1130"), (-11 * HOUR, "-11"));
    // Daylight saving first on 26 September 2010, and from 24 September 2011.
    change(utc(2010, 9, 26, 11, 0, 0), (-11 * HOUR, "-11"), (-10 * HOUR, "-10"));
    change(utc(2011, 9, 24, 14, 0, 0), (-11 * HOUR, "-11"), (-10 * HOUR, "-10"));
    // The day that was left out, 30 December 2011: -10 to +14.
    change(utc(2011, 12, 30, 10, 0, 0), (-10 * HOUR, "-10"), (14 * HOUR, "+14"));
    change(utc(2012, 3, 31, 14, 0, 0), (14 * HOUR, "+14"), (13 * HOUR, "+13"));
    // The last change: first Sunday of April 2021, 04:00 wall.
    change(utc(2021, 4, 3, 14, 0, 0), (14 * HOUR, "+14"), (13 * HOUR, "+13"));
    let answer = ask_all(&file, b"Pacific/Apia", utc(9999, 12, 31, 0, 0, 0)).expect("an answer");
    assert_eq!((answer.end, answer.savings), (Transition::EndOfTime, 0));
}
