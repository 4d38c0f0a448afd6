//! The worked values of the scope paper and some of the realistic files', by the wrapper.

use nzd::{ask, ask_plain, check, codes, location, locations, map_local, normalize, version_text, LocationField, Pin};
use nzd::{Answer, Bound, Edition, Error, LocalInstants, Mark, Number, Receiver};

/// "00 00 00 00, 00 05 01 03 55 54 43, 01 04 00 01 30 00: 17 bytes, one fixed zone \"UTC\""
const UTC: &[u8] = b"\0\0\0\0\x00\x05\x01\x03UTC\x01\x04\x00\x01\x30\x00";

const HOUR: i64 = 3_600_000;
const TICKS_PER_SECOND: i64 = 10_000_000;

fn europe() -> Vec<u8> {
    std::fs::read(concat!(env!("CARGO_MANIFEST_DIR"), "/../tests/data/europe.nzd")).expect("europe.nzd")
}

/// Number and place of a question that is refused.
fn refused(result: Result<Answer, Error>) -> (Number, usize) {
    let error = result.expect_err("a refusal");
    (error.number, error.place)
}

#[test]
fn the_worked_file() {
    let start_and_end = (Bound::StartOfTime, Bound::EndOfTime);
    for answer in [ask_plain(UTC, "UTC", 0, Edition::Two), ask(UTC, b"UTC", 0, Mark::MoreMayCome, Edition::Two)] {
        let answer = answer.expect("an answer");
        assert_eq!((answer.wall_offset_ms, answer.savings_ms, answer.name), (0, 0, &b"UTC"[..]));
        assert_eq!(answer.standard_offset_ms, 0);
        assert_eq!((answer.start, answer.end), start_and_end);
    }
    assert_eq!(check(UTC), Ok(()));
    // "unmarked lines .. write `1 17` for GMT, `1 11` on 16 bytes and `1 0` on none"
    assert_eq!(refused(ask_plain(UTC, "GMT", 0, Edition::Two)), (Number::NotYet, 17));
    assert_eq!(refused(ask_plain(&UTC[..16], "UTC", 0, Edition::Two)), (Number::NotYet, 11));
    assert_eq!(refused(ask_plain(&[], "UTC", 0, Edition::Two)), (Number::NotYet, 0));
    assert_eq!(refused(ask(UTC, "GMT", 0, Mark::ThisIsAll, Edition::Two)), (Number::NotFound, 17));
    assert_eq!(refused(ask(UTC, "GMT", 0, Mark::MoreMayCome, Edition::Two)), (Number::NotYet, 17));
    assert_eq!(refused(ask(&UTC[..16], "UTC", 0, Mark::MoreMayCome, Edition::Two)), (Number::NotYet, 11));
    assert_eq!(refused(ask(&UTC[..16], "UTC", 0, Mark::ThisIsAll, Edition::Two)), (Number::CutShort, 11));
    let longer = [UTC, &[2]].concat();
    assert_eq!(refused(ask(&longer, "GMT", 0, Mark::MoreMayCome, Edition::Two)), (Number::NotFound, 17));
    assert_eq!(refused(ask(&[], "UTC", 0, Mark::MoreMayCome, Edition::Two)), (Number::NotYet, 0));
    assert_eq!(refused(ask(&[], "UTC", 0, Mark::ThisIsAll, Edition::Two)), (Number::CutShort, 0));
    assert_eq!(refused(ask_plain(UTC, "UTC", i64::MAX, Edition::Two)), (Number::InstantOutOfRange, 0));
}

#[test]
fn the_name_is_a_part_of_the_file() {
    let file = UTC.to_vec();
    let answer = ask_plain(&file, String::from("UTC"), 0, Edition::Two).expect("an answer");
    assert_eq!(answer.name.as_ptr(), file[8..].as_ptr());
}

#[test]
fn summer_and_winter() {
    let file = europe();
    // 2024-03-31T01:00Z and 2024-10-27T01:00Z.
    let (spring, autumn) = (1_711_846_800 * TICKS_PER_SECOND, 1_729_990_800 * TICKS_PER_SECOND);
    let summer = ask(&file, "Europe/Oslo", spring, Mark::ThisIsAll, Edition::Two).expect("an answer");
    assert_eq!((summer.wall_offset_ms, summer.savings_ms, summer.name), (2 * HOUR, HOUR, &b"CEST"[..]));
    assert_eq!(summer.standard_offset_ms, HOUR);
    assert_eq!((summer.start, summer.end), (Bound::At(spring), Bound::At(autumn)));
    let winter = ask(&file, "Europe/Oslo", spring - 1, Mark::ThisIsAll, Edition::Two).expect("an answer");
    assert_eq!((winter.wall_offset_ms, winter.savings_ms, winter.name), (HOUR, 0, &b"CET"[..]));
    assert_eq!(winter.standard_offset_ms, HOUR);
    assert!(winter.start < winter.end && winter.end == Bound::At(spring));
    assert_eq!(version_text(&file), Ok("2025b"));
    assert_eq!(summer.name_str(), "CEST");
}

#[test]
fn standard_offsets() {
    // Zones "A" and "B"; A's interval is at +23:30 with savings of -00:30, which is 24 hours of standard time.
    let [ahead, before, behind] = [0x5f, 0x2f, 0x30];
    let file = |savings| {
        let zone = [1, 9, 0, 2, 1, 0, 0, ahead, savings, 1, 0];
        [&[0, 0, 0, 0, 0, 5, 2, 1, b'A', 1, b'B'], &zone[..], &[1, 3, 1, 1, 0x30]].concat()
    };
    for id in ["A", "B", "C"] {
        assert_eq!(refused(ask(&file(before), id, 0, Mark::MoreMayCome, Edition::Two)), (Number::BadInterval, 11));
    }
    let file = file(behind);
    let answer = ask(&file, "A", 0, Mark::ThisIsAll, Edition::Two).expect("an answer");
    assert_eq!((answer.wall_offset_ms, answer.savings_ms, answer.standard_offset_ms), (84_600_000, 0, 84_600_000));
}

#[test]
fn editions() {
    // Strings "A", "B" and "C", a fixed zone "A" with the name "C", and "B" for "A".
    let file = b"\0\0\0\0\x00\x07\x03\x01A\x01B\x01C\x01\x04\x00\x01\x30\x02\x03\x03\x01\x01\x00";
    for (edition, name, place) in [(Edition::One, "A", 8), (Edition::Two, "C", 12)] {
        for answer in [
            ask(file, "A", 0, Mark::ThisIsAll, edition),
            ask_plain(file, "A", 0, edition),
            nzd::ask_named(file, "B", 0, Mark::ThisIsAll, edition),
        ] {
            let answer = answer.expect("an answer");
            assert_eq!((answer.name_str(), answer.name.as_ptr()), (name, file[place..].as_ptr()));
        }
        // A name past the pool, and a byte behind the name.
        for (zone, number) in
            [(&[1, 4, 0, 1, 0x30, 5][..], Number::BadText), (&[1, 5, 0, 1, 0x30, 0, 0], Number::BadData)]
        {
            let file = [&[0, 0, 0, 0, 0, 3, 1, 1, b'A'][..], zone].concat();
            assert_eq!(refused(ask(&file, "A", 0, Mark::ThisIsAll, edition)), (number, 9));
        }
    }
}

#[test]
fn local_times() {
    let file = europe();
    let oslo = |local: i64| map_local(&file, "Europe/Oslo", local * TICKS_PER_SECOND).expect("instants");
    // 2024-10-27T02:30, an autumn night: 00:30Z and 01:30Z.
    let (earlier, later) = (1_729_989_000 * TICKS_PER_SECOND, 1_729_992_600 * TICKS_PER_SECOND);
    assert_eq!(oslo(1_729_996_200), LocalInstants::Two { earlier, later });
    let offset =
        |ticks| ask(&file, "Europe/Oslo", ticks, Mark::ThisIsAll, Edition::Two).expect("an answer").wall_offset_ms;
    assert_eq!((offset(earlier), offset(later)), (2 * HOUR, HOUR));
    // 2024-03-31T02:30, a spring gap, and 2024-07-01T12:00.
    assert_eq!(oslo(1_711_852_200), LocalInstants::None);
    assert_eq!(oslo(1_719_835_200), LocalInstants::One(1_719_828_000 * TICKS_PER_SECOND));
    let unknown = Err(Error { number: Number::NotFound, place: 22_864 });
    assert_eq!(map_local(&file, "Europe/Olso", i64::MIN), unknown);
}

/// Where Oslo and London are, and the countries of the latter's clocks since 1970.
#[test]
fn places() {
    let file = europe();
    let found = |field, zone: &str| {
        let mut all = locations(&file, field).map(|location| location.expect("a location"));
        all.find(|location| location.zone == zone).expect("the zone's location")
    };
    let oslo = found(LocationField::Zone, "Europe/Oslo");
    // 59 degrees 55 minutes north, 10 degrees 45 minutes east.
    assert_eq!(oslo.pin, Pin { latitude: 215_700.0 / 3600.0, longitude: 10.75 });
    assert_eq!(oslo.countries.map(|country| (country.name, country.code)).collect::<Vec<_>>(), [("Norway", "NO")]);
    let london = found(LocationField::Zone1970, "Europe/London");
    let mut countries = london.countries;
    assert_eq!(countries.by_ref().map(|country| country.code).collect::<Vec<_>>(), ["GB", "GG", "IM", "JE"]);
    assert_eq!(countries.next(), None);
    let refused = location(&file, LocationField::Zone, 1000).expect_err("no such location");
    assert_eq!((refused.number, refused.place), (Number::NotFound, 22_864 + 8));
}

/// A file with the pool string "A" and this zone.
fn zone(data: &[u8]) -> Vec<u8> {
    [&b"\0\0\0\0\x00\x03\x01\x01A\x01"[..], &[data.len() as u8], data].concat()
}

#[test]
fn local_times_at_the_ends_of_the_range() {
    // An hour ahead, and an hour behind.
    let (ahead, behind) = (zone(b"\x00\x01\x32"), zone(b"\x00\x01\x2e"));
    let (first, last) = (-621_355_968_000_000_000, 2_534_023_007_999_999_999);
    let hour = HOUR * 10_000;
    assert_eq!(map_local(&ahead, "A", last + hour), Ok(LocalInstants::One(last)));
    assert_eq!(map_local(&ahead, "A", last + hour + 1), Ok(LocalInstants::None));
    assert_eq!(map_local(&ahead, "A", first), Ok(LocalInstants::None));
    assert_eq!(map_local(&behind, "A", first - hour), Ok(LocalInstants::One(first)));
    for file in [&ahead, &behind] {
        for local in [i64::MIN, i64::MAX] {
            assert_eq!(map_local(file, "A", local), Ok(LocalInstants::None));
        }
    }
    // The refusals of "this is all" come first; what is behind the zone is not looked at.
    let refused = |number, place| Err(Error { number, place });
    assert_eq!(map_local(&ahead, "B", i64::MIN), refused(Number::NotFound, 14));
    assert_eq!(map_local(&ahead[..13], "A", 0), refused(Number::CutShort, 9));
    assert_eq!(map_local(&ahead[..9], "A", 0), refused(Number::NotFound, 9));
    assert_eq!(map_local(&[&ahead[..], &[0]].concat(), "A", hour), Ok(LocalInstants::One(0)));
    assert_eq!(map_local(&[], "A", 0), refused(Number::CutShort, 0));
}

#[test]
fn three_instants_read_as_one_local_time() {
    // Two hours ahead, then one, then none, from 90 and from 30 minutes before minute 100,000,000 on.
    let file = zone(b"\0\x02\x03\0\0\x34\x34\xa6\xc1\xd7\x2f\0\x32\x32\xe2\xc1\xd7\x2f\0\x30\x30\x01\0");
    let (earliest, latest) = (6_353_304_000_000_000, 6_353_376_000_000_000);
    let found = map_local(&file, "A", 6_353_376_000_000_000).expect("instants");
    assert_eq!(found, LocalInstants::More { count: 3, earliest, latest });
    assert_eq!((found.count(), found.earliest(), found.latest()), (3, Some(earliest), Some(latest)));
    let one = map_local(&file, "A", 0).expect("instants");
    assert_eq!((one.count(), one.earliest(), one.latest()), (1, Some(-72_000_000_000), Some(-72_000_000_000)));
    let none = map_local(&file, "A", i64::MAX).expect("instants");
    assert_eq!((none.count(), none.earliest(), none.latest()), (0, None, None));
}

#[test]
fn normalizing() {
    // One zone "A": 1970 in ticks, which minutes since 1800 say in four bytes.
    let long = b"\0\0\0\0\x00\x03\x01\x01A\x01\x15\0\x02\x02\0\0\x30\x30\x02\0\0\0\0\0\0\0\0\0\x30\x30\x01\0";
    let short = b"\0\0\0\0\x00\x03\x01\x01A\x01\x10\0\x02\x02\0\0\x30\x30\xe0\x9b\xd1\x2a\0\x30\x30\x01\0";
    assert_eq!(check(long), Ok(()));
    let mut out = vec![0xaa; long.len()];
    assert_eq!(normalize(long, &mut out), Ok(short.len()));
    assert_eq!(&out[..short.len()], short);
    assert!(out[short.len()..].iter().all(|byte| *byte == 0xaa));
    // Room for one byte less: nothing is written.
    let mut out = vec![0xaa; short.len() - 1];
    assert_eq!(normalize(long, &mut out), Err(Error { number: Number::OutputTooShort, place: 0 }));
    assert!(out.iter().all(|byte| *byte == 0xaa));
    // The check's refusal comes first, whatever the room; without room a good file gets 15.
    let good = b"\0\0\0\0\x00\x03\x01\x01A";
    let bad = [&good[..], b"\x01\x02\0\x03"].concat();
    let fault = Error { number: Number::BadData, place: 9 };
    assert_eq!(normalize(&bad, &mut []), Err(fault));
    assert_eq!(check(&bad), Err(fault));
    assert_eq!(normalize(good, &mut []), Err(Error { number: Number::OutputTooShort, place: 0 }));
    assert_eq!(check(good), Ok(()));
    assert_eq!(normalize(good, &mut [0; 8]), Err(Error { number: Number::OutputTooShort, place: 0 }));
    let mut out = [0; 9];
    assert_eq!((normalize(good, &mut out), &out), (Ok(9), good));
}

#[test]
fn small_codes() {
    let mut out = [0; 16];
    let mut code = |written: &dyn Fn(&mut [u8]) -> Result<usize, Error>| written(&mut out).map(|n| out[..n].to_vec());
    assert_eq!(code(&|out| codes::write_count(0x7fff_ffff, out)), Ok(vec![0xff, 0xff, 0xff, 0xff, 0x07]));
    assert_eq!(code(&|out| codes::write_offset(0, out)), Ok(vec![0x30]));
    assert_eq!(code(&|out| codes::write_offset(HOUR, out)), Ok(vec![0x32]));
    assert_eq!(code(&|out| codes::write_offset(1, out)), Ok(vec![0xc5, 0x26, 0x5c, 0x01]));
    assert_eq!(code(&|out| codes::write_transition(Bound::StartOfTime, None, out)), Ok(vec![0]));
    assert_eq!(code(&|out| codes::write_transition(Bound::EndOfTime, Some(0), out)), Ok(vec![1]));
    let bad = Error { number: Number::BadCode, place: 0 };
    assert_eq!(codes::write_count(1 << 31, &mut []), Err(bad));
    assert_eq!(codes::read_offset(&[0x60]), Err(bad));
    assert_eq!(codes::read_transition(&[0x80, 0x01], None), Err(bad));
    assert_eq!(codes::read_transition(&[1], None), Ok((Bound::EndOfTime, 1)));
    let early = Error { number: Number::BadData, place: 0 };
    assert_eq!(codes::read_count(&[]), Err(early));
    assert_eq!(codes::read_text(b"\x04UTC"), Err(early));
    let short = Error { number: Number::OutputTooShort, place: 0 };
    assert_eq!(codes::write_text(b"UTC", &mut [0; 3]), Err(short));
}

#[test]
fn bytes_in_pieces() {
    fn denied<T>(number: Number, place: usize) -> Result<T, Error> {
        Err(Error { number, place })
    }
    let mut buffer = [0xaa; 19];
    let mut receiver = Receiver::new(&mut buffer);
    // Byte by byte: the version, field 0 and the zone.
    for (count, byte) in (1..).zip(UTC) {
        assert_eq!(receiver.add(&[*byte]), Ok(()));
        let place = match count {
            1..=3 => 0,
            5..=10 => 4,
            12..=16 => 11,
            _ => count,
        };
        assert_eq!((receiver.held(), receiver.place()), (&UTC[..count], place));
        let said = receiver.ask("UTC", 0, Mark::MoreMayCome, Edition::Two).map(|answer| answer.wall_offset_ms);
        assert_eq!(said, if count < 17 { denied(Number::NotYet, place) } else { Ok(0) });
    }
    assert_eq!(receiver.ask_plain("GMT", 0, Edition::Two), denied(Number::NotYet, 17));
    assert_eq!(receiver.check(), Ok(()));
    assert_eq!(receiver.version_text(), denied(Number::NotFound, 17));
    assert_eq!(receiver.map_local("UTC", 5), Ok(LocalInstants::One(5)));
    let mut out = [0; 17];
    assert_eq!(receiver.normalize(&mut out), Ok(17));
    assert_eq!(out, UTC);
    // What doesn't fit is refused whole, and what just fits is not.
    assert_eq!(receiver.add(&[0; 3]), denied(Number::OutputTooShort, 0));
    assert_eq!((receiver.held(), receiver.place()), (UTC, 17));
    assert_eq!(receiver.add(&[0; 2]), Ok(()));
    assert_eq!(receiver.add(&[]), Ok(()));
    assert_eq!((receiver.held().len(), receiver.place()), (19, 17));
    assert_eq!(receiver.check(), denied(Number::FieldOrder, 17));
    // A reset empties the receiver, not the buffer.
    receiver.reset();
    assert_eq!((receiver.held(), receiver.place()), (&[][..], 0));
    assert_eq!(receiver.ask("UTC", 0, Mark::ThisIsAll, Edition::Two), denied(Number::CutShort, 0));
    assert_eq!(buffer[..17], UTC[..]);
}
