//! 02, Ask 3: wall time to instants.

use crate::common::{ask_all, generated, hex, utc, worked, zone_file};
use second_reader::generate::{damaged, instants, local_times, Damage, Size};
use second_reader::local::instants_of_local;
use second_reader::transition::{FIRST, LAST, TICKS_PER_DAY, TICKS_PER_MS};
use second_reader::zone::{read_zone, Interval, Rest, Zone};
use second_reader::{codes, map_local, LocalInstants, Refusal, Transition};
use std::collections::BTreeSet;
use Transition::{EndOfTime, Finite, StartOfTime};

#[test]
fn reading_3_1_a_questions_refusals() {
    worked(&[
        ("wall A 0", "V 0003010141 0103 000130 00", "0 1 0 0"),
        ("wall A 0", "V 0003010141 0103 0001", "2 9"),
        ("wall A 0", "V 0003010141", "12 9"),
        ("wall B 0", "V 0003010141 0103 000130 02", "12 14"),
        ("wall A 0", "", "2 0"),
        ("wall A I64MAX", "V 0003010141 0103 0001e0", "7 9"),
    ]);
}

#[test]
fn reading_3_2_no_local_time_is_out_of_range() {
    worked(&[
        ("wall A 2534023043999999999", "V 0003010141 0103 000132", "0 1 2534023007999999999 2534023007999999999"),
        ("wall A 2534023044000000000", "V 0003010141 0103 000132", "17 0"),
        ("wall A MIN", "V 0003010141 0103 000132", "17 0"),
        ("wall A I64MIN", "V 0003010141 0103 000132", "17 0"),
        ("wall A I64MAX", "V 0003010141 0103 00012E", "17 0"),
        ("wall A MIN", "V 0003010141 0103 00012E", "0 1 -621355932000000000 -621355932000000000"),
    ]);
}

#[test]
fn reading_3_3_three_instants() {
    worked(&[(
        "wall A 6353376000000000",
        "V 0003010141 0117 00020300003434 A6C1D72F 003232 E2C1D72F 003030 0100",
        "0 3 6353304000000000 6353376000000000",
    )]);
}

#[test]
fn reading_3_5_12_before_17() {
    worked(&[("wall B I64MIN", "V 0003010141 0103 000130", "12 14")]);
}

#[test]
fn reading_3_6_an_alias_is_no_zone() {
    worked(&[("wall B 0", "V 0005 0201410142 0103 000130 0303 010100", "12 16")]);
}

#[test]
fn reading_3_8_an_interval_holds_its_start_and_not_its_end() {
    let file = "V 0003010141 0110 00020200003232 80C2D72F 003030 0100";
    worked(&[
        ("wall A 6353376000000000", file, "0 2 6353340000000000 6353376000000000"),
        ("wall A 6353412000000000", file, "0 1 6353412000000000 6353412000000000"),
        ("wall A 6353375999999999", file, "0 1 6353339999999999 6353339999999999"),
    ]);
}

/// Walks the zone's intervals around the local time by asking, each from the end of the one before, and takes from each
/// the one instant that it can have. Offsets are inside 24 hours, so two days either way are enough.
fn by_walking(file: &[u8], id: &[u8], local: i64) -> Vec<i64> {
    let near = |days: i64| local.saturating_add(days * TICKS_PER_DAY).clamp(FIRST, LAST);
    let (mut ticks, last) = (near(-2), near(2));
    let mut found = Vec::new();
    loop {
        let answer = ask_all(file, id, ticks).expect("an answer");
        let wanted = local.checked_sub(i64::from(answer.wall) * TICKS_PER_MS);
        if let Some(wanted) = wanted.filter(|at| (FIRST..=LAST).contains(at)) {
            if answer.start <= Finite(wanted) && Finite(wanted) < answer.end {
                found.push(wanted);
            }
        }
        match answer.end {
            Finite(end) if end <= last => ticks = end,
            _ => return found,
        }
    }
}

#[test]
fn counts_are_those_of_a_walk_over_the_intervals() {
    let mut counts = BTreeSet::new();
    for seed in 20_000..20_400 {
        let (content, plan, mut prng) = generated(seed, Size::Small);
        let file = plan.bytes();
        for zone in &content.zones {
            let id = content.id(zone);
            for local in local_times(zone, &mut prng) {
                let found = by_walking(&file, id, local);
                counts.insert(found.len());
                let wanted = match found.as_slice() {
                    [] => Err((17, 0)),
                    all => Ok(LocalInstants { count: all.len(), earliest: all[0], latest: all[all.len() - 1] }),
                };
                let pair = |refusal: Refusal| (refusal.number.value(), refusal.place);
                assert_eq!(map_local(&file, id, local).map_err(pair), wanted, "seed {seed}, {zone:?}, {local}");
            }
        }
    }
    // Short intervals give more than two.
    assert!(counts.is_superset(&BTreeSet::from([0, 1, 2, 3, 4])), "{counts:?}");
}

#[test]
fn every_tick_is_tried() {
    // Offsets of some milliseconds and intervals of some thousand ticks: each tick that could read the local time is asked.
    let mut prng = second_reader::generate::Prng::new(3);
    let mut counts = BTreeSet::new();
    for _ in 0..200 {
        let mut start = StartOfTime;
        let mut at = prng.range(-20_000, 20_000);
        let mut intervals = Vec::new();
        for _ in 0..1 + prng.below(8) {
            let wall = prng.range(-3, 3) as i32;
            intervals.push(Interval { start, name: 0, wall, savings: 0 });
            start = Finite(at);
            at += prng.range(1, 15_000);
        }
        let zone = Zone { id: 0, rest: Rest::Listed { intervals, end: EndOfTime, tail: None } };
        let shown = |ticks: i64| ticks + i64::from(zone.at(ticks).interval.wall) * TICKS_PER_MS;
        for _ in 0..4 {
            let local = prng.range(-60_000, 60_000);
            let wanted: BTreeSet<i64> =
                (local - 40_000..=local + 40_000).filter(|ticks| shown(*ticks) == local).collect();
            assert_eq!(instants_of_local(&zone, local), wanted, "{zone:?} {local}");
            counts.insert(wanted.len());
        }
    }
    assert!(counts.is_superset(&BTreeSet::from([0, 1, 2, 3])), "{counts:?}");
}

#[test]
fn the_most_is_4098() {
    // 2000-03-01 00:00 is read once in each of 4,096 intervals of a millisecond, each with a millisecond less than the one
    // before, and twice in the tail: by its standard offset, and after its change at 01:00 by two hours less.
    let local = utc(2000, 3, 1, 0, 0, 0);
    let starts = (0..4096).map(|number| match number {
        0 => StartOfTime,
        _ => Finite(local + number * TICKS_PER_MS),
    });
    let interval = |(number, start): (i32, Transition)| Interval { start, name: 0, wall: -number, savings: 0 };
    let intervals: Vec<Interval> = (0..).zip(starts).map(interval).collect();
    let tail = hex(&format!("{} 00 00090230 00 00030232", to_hex(&codes::encode_offset(-4096).expect("an offset"))));
    let savings = codes::encode_offset(-7_200_000 + 4096).expect("an offset");
    let (tail, _) = second_reader::recurrence::parse_tail(&[tail, savings].concat()).expect("a tail");
    let end = Finite(local + 4096 * TICKS_PER_MS);
    let zone = Zone { id: 0, rest: Rest::Listed { intervals, end, tail: Some(tail) } };
    let data = zone.encode().expect("codes");
    assert_eq!(read_zone(&data, 1), Ok(zone));
    let file = zone_file(&to_hex(&data));
    let found = map_local(&file, b"A", local);
    assert_eq!(found, Ok(LocalInstants { count: 4098, earliest: local, latest: utc(2000, 3, 1, 2, 0, 0) }));
}

fn to_hex(bytes: &[u8]) -> String {
    bytes.iter().map(|byte| format!("{byte:02x}")).collect()
}

#[test]
fn refusals_are_those_of_the_question() {
    let mut refused = BTreeSet::new();
    for seed in 21_000..22_500 {
        let (content, plan, mut prng) = generated(seed, Size::Small);
        let kind = *prng.pick(&Damage::ALL);
        let file = damaged(&plan, kind, &mut prng);
        let ids = content.zones.iter().map(|zone| content.id(zone)).chain([&b"No/Such_Zone"[..]]);
        for id in ids {
            let local = prng.range(i64::MIN, i64::MAX);
            match (map_local(&file, id, local), ask_all(&file, id, 0)) {
                (Err(refusal), Err(asked)) => {
                    assert_eq!(refusal, asked);
                    refused.insert(refusal.number.value());
                }
                (said, asked) => {
                    assert!(
                        asked.is_ok() && said.is_ok_and(|found| found.count > 0)
                            || said.is_err_and(|no| no.number.value() == 17)
                    );
                }
            }
        }
    }
    assert_eq!(refused, BTreeSet::from([2, 3, 4, 5, 6, 7, 8, 9, 10, 11, 12]));
}

#[test]
fn realistic_nights() {
    let file = std::fs::read(concat!(env!("CARGO_MANIFEST_DIR"), "/../data/all.nzd")).expect("all.nzd");
    let found = |zone: &str, local: i64| {
        map_local(&file, zone.as_bytes(), local).map(|found| (found.count, found.earliest, found.latest))
    };
    let none = Err(second_reader::Number::NoInstant.at(0));
    // Oslo's autumn night of 2024 and spring night of 2024, and around them.
    let oslo = |hour: i64, minute: i64| found("Europe/Oslo", utc(2024, 10, 27, hour, minute, 0));
    assert_eq!(oslo(1, 59), Ok((1, utc(2024, 10, 26, 23, 59, 0), utc(2024, 10, 26, 23, 59, 0))));
    assert_eq!(oslo(2, 0), Ok((2, utc(2024, 10, 27, 0, 0, 0), utc(2024, 10, 27, 1, 0, 0))));
    assert_eq!(oslo(2, 59), Ok((2, utc(2024, 10, 27, 0, 59, 0), utc(2024, 10, 27, 1, 59, 0))));
    assert_eq!(oslo(3, 0), Ok((1, utc(2024, 10, 27, 2, 0, 0), utc(2024, 10, 27, 2, 0, 0))));
    assert_eq!(found("Europe/Oslo", utc(2024, 3, 31, 2, 0, 0)), none);
    assert_eq!(found("Europe/Oslo", utc(2024, 3, 31, 3, 0, 0) - 1), none);
    assert_eq!(found("Europe/Oslo", utc(2024, 3, 31, 3, 0, 0)).map(|all| all.0), Ok(1));
    // Apia: 4 July 1892 was held twice, 30 December 2011 not at all.
    assert_eq!(found("Pacific/Apia", utc(1892, 7, 4, 12, 0, 0)).map(|all| all.0), Ok(2));
    assert_eq!(found("Pacific/Apia", utc(2011, 12, 30, 12, 0, 0)), none);
    // Each instant is among those of what it shows.
    let contents = second_reader::file::read_file(&file).expect("well formed");
    let mut prng = second_reader::generate::Prng::new(17);
    for (_, zone) in contents.zones.iter().step_by(5) {
        for ticks in instants(zone, &mut prng) {
            let shown = ticks + i64::from(zone.at(ticks).interval.wall) * TICKS_PER_MS;
            assert!(instants_of_local(zone, shown).contains(&ticks));
        }
    }
}
