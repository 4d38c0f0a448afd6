//! Instants worth asking about, and question lines.

use crate::calendar;
use crate::generate::content::FileContent;
use crate::generate::prng::Prng;
use crate::transition::{in_range, Transition, FIRST, LAST, TICKS_PER_MS};
use crate::zone::{Rest, Zone};

/// Instants in range: at, one tick before and one tick after bounds of a zone's intervals, and a few others.
pub fn instants(zone: &Zone, prng: &mut Prng) -> Vec<i64> {
    let mut bounds = vec![FIRST, 0, LAST, prng.range(FIRST, LAST)];
    if let Rest::Listed { intervals, end, tail } = &zone.rest {
        let starts = intervals.iter().map(|interval| interval.start);
        bounds.extend(starts.chain([*end]).filter_map(|bound| match bound {
            Transition::Finite(ticks) => Some(ticks),
            _ => None,
        }));
        if let (Some(tail), Transition::Finite(tail_start)) = (tail, *end) {
            let first = calendar::year_of(tail_start);
            let years = (first - 1..=first + 2).chain(9998..=10_001).chain([prng.range(1, 9999)]);
            bounds.extend(years.flat_map(|year| [tail.standard_occurrence(year), tail.daylight_occurrence(year)]));
        }
    }
    bounds.iter().flat_map(|&bound| [bound - 1, bound, bound + 1]).filter(|&ticks| in_range(ticks)).collect()
}

/// Local times worth asking about: what clocks of the zone show at, before and after its bounds, and what they would show
/// with another of its offsets; and a few that no clock shows.
pub fn local_times(zone: &Zone, prng: &mut Prng) -> Vec<i64> {
    let walls: Vec<i64> = zone.wall_offsets().into_iter().map(|wall| i64::from(wall) * TICKS_PER_MS).collect();
    let mut locals = vec![i64::MIN, i64::MAX, FIRST - 1, LAST + 1, prng.range(i64::MIN, i64::MAX)];
    for ticks in instants(zone, prng) {
        let shown = ticks + i64::from(zone.at(ticks).interval.wall) * TICKS_PER_MS;
        locals.extend([shown - 1, shown, ticks + prng.pick(&walls)]);
    }
    locals
}

/// Names worth asking about: zone IDs, aliases, targets and other strings, and what no string is.
pub fn names(content: &FileContent, prng: &mut Prng) -> Vec<Vec<u8>> {
    let mut names = vec![b"No/Such_Zone".to_vec(), vec![0xff], Vec::new()];
    names.extend(content.zones.iter().map(|zone| content.id(zone).to_vec()));
    let pairs = content.aliases.iter().flatten().take(12);
    names.extend(pairs.flat_map(|&(key, target)| [key, target]).map(|number| content.pool[number].clone()));
    if !content.pool.is_empty() {
        names.push(prng.pick(&content.pool).clone());
    }
    names
}

/// Lines that aren't understood, or that are refused before any byte of the file is looked at.
const ODD_LINES: [&str; 18] = [
    "",
    " ",
    "UTC",
    "UTC ",
    "UTC  0",
    "UTC 0 ",
    "UTC 0 all ",
    "UTC 0 some",
    "UTC 0\r",
    "UTC +1",
    "UTC -",
    "UTC 1x",
    "UTC 00000000000000000000",
    "UTC 9999999999999999999",
    "UTC -9223372036854775809",
    "UTC 2534023008000000000 part",
    "UTC -621355968000000001",
    "UTC -0 part",
];

/// Question lines for a file of this content, whatever has become of the file.
pub fn question_lines(content: &FileContent, prng: &mut Prng) -> Vec<u8> {
    let mut out = Vec::new();
    let mut line = |id: &[u8], rest: &str| {
        out.extend(id);
        out.extend(rest.as_bytes());
        out.push(b'\n');
    };
    let marks = ["", " all", " part"];
    for zone in &content.zones {
        let all = instants(zone, prng);
        for _ in 0..12 {
            let rest = format!(" {}{}", prng.pick(&all), prng.pick(&marks));
            line(content.id(zone), &rest);
        }
    }
    for mark in marks {
        line(b"No/Such_Zone", &format!(" 0{mark}"));
        line(b"", &format!(" -1{mark}"));
    }
    line(b"", ODD_LINES[prng.below(ODD_LINES.len())]);
    line(b"", ODD_LINES[prng.below(ODD_LINES.len())]);
    if prng.one_in(20) {
        // Just short enough, and one byte too long.
        line(&[b'q'; 2046], " 0");
        line(&[b'q'; 2047], " 0");
    }
    if prng.one_in(4) {
        // A last line without a line feed.
        out.pop();
    }
    out
}
