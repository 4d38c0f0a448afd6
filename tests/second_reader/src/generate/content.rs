//! What a generated file holds, before any byte of it is written.

use crate::generate::prng::Prng;
use crate::locations::{Location, LocationField, MOST_EAST, MOST_NORTH};
use crate::pool::MOST_STRINGS;
use crate::recurrence::{Mode, Rule, Tail};
use crate::transition::{Transition, FIRST, LAST, TICKS_PER_HOUR, TICKS_PER_MINUTE, TICKS_PER_MS};
use crate::zone::{Interval, Rest, Zone, MOST_INTERVALS};
use crate::{calendar, codes};
use std::collections::BTreeSet;
use std::ops::Range;

const DAY_MS: i64 = 86_400_000;
const YEAR_1800: i64 = -53_646_624_000_000_000;

/// How large a file may grow.
#[derive(Clone, Copy, Debug, PartialEq, Eq)]
pub enum Size {
    /// A few hundred bytes, for tests that take every prefix.
    Small,
    /// Mostly a few hundred bytes, now and then up to the largest sizes.
    Any,
}

/// The content of a well-formed file.
#[derive(Clone, Debug, Default, PartialEq, Eq)]
pub struct FileContent {
    /// The strings of field 0.
    pub pool: Vec<Vec<u8>>,
    /// The zones, no two with the same ID bytes.
    pub zones: Vec<Zone>,
    /// The text of field 2.
    pub version: Option<Vec<u8>>,
    /// The pairs of field 3, alias and target, no two aliases with the same bytes.
    pub aliases: Option<Vec<(usize, usize)>>,
    /// The locations of field 6.
    pub locations: Option<Vec<Location>>,
    /// The locations of field 7.
    pub locations_1970: Option<Vec<Location>>,
    /// Other fields, with their data.
    pub others: Vec<(u8, Vec<u8>)>,
}

impl FileContent {
    /// The ID bytes of a zone.
    pub fn id(&self, zone: &Zone) -> &[u8] {
        &self.pool[zone.id]
    }
}

/// A well-formed file's content.
pub fn random_content(prng: &mut Prng, size: Size) -> FileContent {
    let mut pool = random_pool(prng, size);
    // Strings for aliases that lead to one another.
    let chain = if pool.len() < 100 && prng.one_in(5) { pool.len()..pool.len() + 11 } else { 0..0 };
    pool.extend(chain.clone().map(|number| format!("alias {}", number - chain.start).into_bytes()));
    let mut zones = Vec::new();
    let mut ids = BTreeSet::new();
    // An empty pool can name no zone.
    if !pool.is_empty() {
        for _ in 0..prng.below(6) {
            let id = prng.below(pool.len());
            if ids.insert(pool[id].clone()) {
                zones.push(Zone { id, rest: random_rest(prng, pool.len(), size) });
            }
        }
    }
    let version = (!prng.one_in(3)).then(|| random_text(prng, size));
    let aliases = (!prng.one_in(3)).then(|| random_aliases(prng, &pool, &zones, chain));
    let locations = prng.one_in(2).then(|| random_locations(prng, pool.len(), LocationField::Zone));
    let locations_1970 = prng.one_in(2).then(|| random_locations(prng, pool.len(), LocationField::Zone1970));
    FileContent { pool, zones, version, aliases, locations, locations_1970, others: random_others(prng) }
}

/// Locations with the outermost coordinates among them, and any number of countries in field 7.
fn random_locations(prng: &mut Prng, pool_count: usize, field: LocationField) -> Vec<Location> {
    // An empty pool has no text for one.
    let count = if pool_count == 0 { 0 } else { prng.below(5) };
    let coordinate = |prng: &mut Prng, most: i32| match prng.below(6) {
        0 => most,
        1 => -most,
        2 => 0,
        3 => prng.range(-i64::from(most) / 225, i64::from(most) / 225) as i32 * 225,
        _ => prng.range(-i64::from(most), i64::from(most)) as i32,
    };
    (0..count)
        .map(|_| {
            let countries = match field {
                LocationField::Zone => 1,
                LocationField::Zone1970 if prng.one_in(30) => 100,
                LocationField::Zone1970 => prng.below(4),
            };
            Location {
                latitude: coordinate(prng, MOST_NORTH),
                longitude: coordinate(prng, MOST_EAST),
                countries: (0..countries).map(|_| (prng.below(pool_count), prng.below(pool_count))).collect(),
                zone: prng.below(pool_count),
                comment: prng.below(pool_count),
            }
        })
        .collect()
}

/// A content with the same zones but for a few offsets, savings, names, ends and rules, over a pool in another order.
pub fn changed_content(content: &FileContent, prng: &mut Prng) -> FileContent {
    let mut changed = content.clone();
    let count = changed.pool.len();
    for zone in &mut changed.zones {
        match &mut zone.rest {
            Rest::Fixed { offset, name } => match prng.below(4) {
                0 => *offset = random_offset(prng),
                1 => *name = Some(prng.below(count)),
                2 => *name = None,
                _ => {}
            },
            Rest::Listed { intervals, tail, .. } => {
                for interval in intervals.iter_mut() {
                    match prng.below(8) {
                        0 => interval.name = prng.below(count),
                        1 => interval.savings = random_savings(prng, interval.wall),
                        2 => {
                            interval.wall = random_offset(prng);
                            interval.savings = random_savings(prng, interval.wall);
                        }
                        _ => {}
                    }
                }
                if let Some(tail) = tail {
                    match prng.below(5) {
                        0 => *tail = random_tail(prng, count),
                        1 => tail.daylight_name = prng.below(count),
                        2 => tail.standard_rule.time = random_offset(prng).abs(),
                        _ => {}
                    }
                }
            }
        }
    }
    // The strings move by one, so that no number stays the same.
    if count > 1 {
        changed.pool.rotate_right(1);
        let moved = |number: &mut usize| *number = (*number + 1) % count;
        each_mention(&mut changed, moved);
    }
    changed
}

/// Every pool number of a content.
pub fn each_mention(content: &mut FileContent, mut change: impl FnMut(&mut usize)) {
    for zone in &mut content.zones {
        change(&mut zone.id);
        match &mut zone.rest {
            Rest::Fixed { name, .. } => name.iter_mut().for_each(&mut change),
            Rest::Listed { intervals, tail, .. } => {
                intervals.iter_mut().for_each(|interval| change(&mut interval.name));
                if let Some(tail) = tail {
                    change(&mut tail.standard_name);
                    change(&mut tail.daylight_name);
                }
            }
        }
    }
    for (key, target) in content.aliases.iter_mut().flatten() {
        change(key);
        change(target);
    }
    for location in content.locations.iter_mut().chain(&mut content.locations_1970).flatten() {
        for (name, code) in &mut location.countries {
            change(name);
            change(code);
        }
        change(&mut location.zone);
        change(&mut location.comment);
    }
}

/// Pairs in any order: from anything in the pool to zones, to other aliases and to what is neither, and along the chain.
fn random_aliases(prng: &mut Prng, pool: &[Vec<u8>], zones: &[Zone], chain: Range<usize>) -> Vec<(usize, usize)> {
    let mut drawn: Vec<(usize, usize)> = Vec::new();
    if let Some(last) = chain.clone().last() {
        // Seven to ten pairs one behind another, and what the last of them leads to.
        let length = 7 + prng.below(4);
        drawn.extend(chain.clone().take(length).map(|number| (number, number + 1)));
        match (drawn.last_mut(), prng.below(4)) {
            (Some(pair), 0) => pair.1 = *prng.pick(&[chain.start, pair.0, last]),
            (Some(pair), 1 | 2) if !zones.is_empty() => pair.1 = prng.pick(zones).id,
            _ => {}
        }
    }
    if !pool.is_empty() {
        for _ in 0..prng.below(if pool.len() > 1000 { 400 } else { 8 }) {
            let any = prng.below(pool.len());
            let target = match prng.below(3) {
                0 if !zones.is_empty() => prng.pick(zones).id,
                1 if !drawn.is_empty() => prng.pick(&drawn).0,
                _ => prng.below(pool.len()),
            };
            drawn.push((any, target));
        }
    }
    let mut pairs = Vec::new();
    let mut keys = BTreeSet::new();
    for (key, target) in drawn {
        if keys.insert(pool[key].clone()) {
            pairs.insert(prng.below(pairs.len() + 1), (key, target));
        }
    }
    pairs
}

/// Strings with duplicates and empty ones among them.
fn random_pool(prng: &mut Prng, size: Size) -> Vec<Vec<u8>> {
    let count = if size == Size::Any && prng.one_in(100) { MOST_STRINGS } else { prng.below(12) };
    let mut pool: Vec<Vec<u8>> = Vec::new();
    while pool.len() < count {
        let string = match prng.below(6) {
            0 => Vec::new(),
            1 if !pool.is_empty() => prng.pick(&pool).clone(),
            _ => random_text(prng, size),
        };
        pool.push(string);
    }
    pool
}

/// UTF-8 with characters of every length, spaces and line feeds among them.
fn random_text(prng: &mut Prng, size: Size) -> Vec<u8> {
    if size == Size::Any && prng.one_in(100) {
        return vec![b'x'; codes::LONGEST_TEXT];
    }
    let letters = ['A', 'b', 'Z', '/', '_', '+', '-', '9', ' ', '\n', 'é', 'ø', '\u{7ff}', '\u{800}', '中', '\u{d7ff}'];
    let rare = ['\0', '\u{e000}', '\u{ffff}', '\u{10000}', '\u{1f41f}', '\u{10ffff}'];
    let plain = prng.one_in(2);
    let length = prng.below(8);
    let text: String = (0..length)
        .map(|_| match prng.below(12) {
            0 if !plain => *prng.pick(&rare),
            _ if !plain => *prng.pick(&letters),
            _ => *prng.pick(&letters[..8]),
        })
        .collect();
    text.into_bytes()
}

/// Fields 4, 5, 8, 9 and one above; only 8 and up may repeat.
fn random_others(prng: &mut Prng) -> Vec<(u8, Vec<u8>)> {
    let mut others = Vec::new();
    for id in [4, 5, 8, 9, 255] {
        let most = if id > 7 { 2 } else { 1 };
        let count = if prng.one_in(3) { 1 + prng.below(most) } else { 0 };
        for _ in 0..count {
            let length = prng.below(12);
            others.push((id, prng.bytes(length)));
        }
    }
    others
}

/// Fixed zones, with a name and without, listed and tail zones.
fn random_rest(prng: &mut Prng, pool_count: usize, size: Size) -> Rest {
    if prng.one_in(4) {
        let name = (!prng.one_in(3)).then(|| prng.below(pool_count));
        return Rest::Fixed { offset: random_offset(prng), name };
    }
    let count = match size {
        Size::Any if prng.one_in(150) => MOST_INTERVALS,
        Size::Any if prng.one_in(20) => 60,
        _ => 1 + prng.below(5),
    };
    // Intervals that are shorter than their offsets differ, so that a local time can be read at many instants.
    let close = prng.one_in(5);
    let mut intervals: Vec<Interval> = Vec::new();
    let mut previous = Transition::StartOfTime;
    for number in 0..count {
        if number > 0 {
            // A long list takes small steps, so that it fits into the range.
            let next = match previous {
                Transition::Finite(before) if close => close_after(prng, before),
                _ => instant_after(prng, previous, count > 20),
            };
            match next {
                Some(ticks) => previous = Transition::Finite(ticks),
                None => break,
            }
        }
        let wall = match intervals.last() {
            Some(before) if close && !prng.one_in(4) => set_back(before, previous),
            _ => None,
        };
        let wall = wall.unwrap_or_else(|| random_offset(prng));
        let savings = random_savings(prng, wall);
        intervals.push(Interval { start: previous, name: prng.below(pool_count), wall, savings });
    }
    if !prng.one_in(3) {
        if let Some(ticks) = instant_after(prng, previous, false) {
            let tail = random_tail(prng, pool_count);
            return Rest::Listed { intervals, end: Transition::Finite(ticks), tail: Some(tail) };
        }
    }
    Rest::Listed { intervals, end: Transition::EndOfTime, tail: None }
}

/// A finite instant after `previous`, shaped for one of the transition forms or for one of their borders.
fn instant_after(prng: &mut Prng, previous: Transition, small_steps: bool) -> Option<i64> {
    let (before, low) = match previous {
        Transition::Finite(ticks) => (ticks, ticks.checked_add(1)?),
        // Any instant may follow start of time; steps are then taken from year 1.
        _ => (FIRST, FIRST),
    };
    let minutes = |count: i64| YEAR_1800 + count * TICKS_PER_MINUTE;
    // Few tries fail, save where `previous` is near the end of the range.
    (0..20)
        .map(|_| match prng.below(if small_steps { 4 } else { 12 }) {
            0 | 1 => before + prng.range(128, 9000) * TICKS_PER_HOUR,
            2 => before + prng.range(1, 127) * TICKS_PER_HOUR,
            3 => before + prng.range(1, 10_000_000) * TICKS_PER_MINUTE / 60,
            4 => before + prng.range(128, 2_097_151) * TICKS_PER_HOUR,
            5 => before + prng.pick(&[127, 128, 2_097_151, 2_097_152]) * TICKS_PER_HOUR,
            6 => minutes(*prng.pick(&[2_097_151, 2_097_152, 2_147_483_647, 2_147_483_648])),
            7 => minutes(prng.range(2_097_152, 2_147_483_647)),
            8 => minutes(prng.range(50_000_000, 150_000_000)) / TICKS_PER_HOUR * TICKS_PER_HOUR,
            9 => low,
            10 => LAST - prng.range(0, 1_000_000_000_000_000) * prng.range(0, 1),
            _ => prng.range(low.min(LAST), LAST),
        })
        .find(|ticks| (low..=LAST).contains(ticks))
}

/// A finite instant some hours, minutes, milliseconds or ticks after another.
fn close_after(prng: &mut Prng, before: i64) -> Option<i64> {
    let unit = *prng.pick(&[TICKS_PER_HOUR, TICKS_PER_MINUTE, TICKS_PER_MS, 1]);
    Some(before + prng.range(1, 12) * unit).filter(|ticks| *ticks <= LAST)
}

/// Savings that leave a standard offset, the outermost ones among them.
fn random_savings(prng: &mut Prng, wall: i32) -> i32 {
    let most = DAY_MS - 1;
    let wall = i64::from(wall);
    let savings = match prng.below(8) {
        0 => (wall - most).max(-most),
        1 => (wall + most).min(most),
        _ => i64::from(random_offset(prng)),
    };
    let fits = (wall - savings).abs() < DAY_MS;
    if fits {
        savings as i32
    } else {
        0
    }
}

/// The wall offset by which clocks are set back, at `start`, to what they showed when the interval before began.
fn set_back(before: &Interval, start: Transition) -> Option<i32> {
    let (Transition::Finite(from), Transition::Finite(to)) = (before.start, start) else {
        return None;
    };
    let wall = i64::from(before.wall) - (to - from) / TICKS_PER_MS;
    (wall > -DAY_MS).then_some(wall as i32)
}

/// Offsets in every form, and the outermost of each.
fn random_offset(prng: &mut Prng) -> i32 {
    let unit = *prng.pick(&[1_800_000, 1_800_000, 60_000, 1_000, 1]);
    let most = (DAY_MS - 1) / unit;
    let number = match prng.below(8) {
        0 => most,
        1 => -most,
        2 => 0,
        _ => prng.range(-most, most),
    };
    (number * unit) as i32
}

fn random_rule(prng: &mut Prng) -> Rule {
    let mode = *prng.pick(&[Mode::Utc, Mode::Wall, Mode::Standard]);
    let (month, day) = match prng.below(6) {
        // Spills over the end of the year, either way.
        0 => (12, *prng.pick(&[31, 30, 26, -1, -2])),
        1 => (1, *prng.pick(&[1, 2, 6, -31])),
        2 => (2, *prng.pick(&[29, 28, 1, -1, -28])),
        _ => {
            let month = prng.range(1, 12) as u32;
            let day = match prng.one_in(2) {
                true => prng.range(1, calendar::longest_length(month)),
                false => prng.range(-calendar::shortest_length(month), -1),
            };
            (month, day as i32)
        }
    };
    Rule {
        mode,
        weekday: prng.below(8) as u8,
        on_or_after: prng.one_in(2),
        extra_day: prng.one_in(3),
        month,
        day,
        time: random_offset(prng).abs(),
    }
}

/// Rules that alternate, fall together or near each other, or have nothing to do with each other.
pub fn random_tail(prng: &mut Prng, pool_count: usize) -> Tail {
    let (standard, savings) = loop {
        let standard = random_offset(prng);
        let savings = random_offset(prng);
        if i64::from(standard + savings).abs() < DAY_MS {
            break (standard, savings);
        }
    };
    let standard_rule = random_rule(prng);
    let daylight_rule = match prng.below(4) {
        0 => standard_rule,
        1 => Rule { day: standard_rule.day.signum(), time: random_offset(prng).abs(), ..standard_rule },
        _ => random_rule(prng),
    };
    Tail {
        standard,
        standard_name: prng.below(pool_count),
        standard_rule,
        daylight_name: prng.below(pool_count),
        daylight_rule,
        savings,
    }
}
