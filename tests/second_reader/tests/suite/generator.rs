//! The generator reaches every shape and every damage that it is meant to.

use crate::common::{ask, generated, part};
use second_reader::generate::plan::{FilePlan, Kind};
use second_reader::generate::{case, damaged, instants, Damage, FileContent, Size};
use second_reader::recurrence::{Mode, Rule};
use second_reader::transition::{FIRST, LAST};
use second_reader::zone::{Rest, Zone};
use second_reader::{calendar, check, lines, Mark, Transition};
use std::collections::BTreeSet;

type Seen = BTreeSet<String>;

fn note(seen: &mut Seen, when: bool, what: &str) {
    if when {
        seen.insert(what.to_string());
    }
}

fn rule_shapes(seen: &mut Seen, rule: &Rule, occurrence: impl Fn(i64) -> i64) {
    let weekday = rule.weekday != 0;
    note(seen, rule.mode == Mode::Utc, "UTC");
    note(seen, rule.mode == Mode::Wall, "wall");
    note(seen, rule.mode == Mode::Standard, "standard");
    note(seen, rule.on_or_after && weekday, "on or after");
    note(seen, !rule.on_or_after && weekday, "on or before");
    note(seen, rule.on_or_after && !weekday, "A without a weekday");
    note(seen, rule.extra_day, "P");
    note(seen, rule.month == 2 && rule.day == 29 && weekday, "29 February with a weekday");
    note(seen, rule.month == 2 && rule.day == 29 && !weekday, "29 February");
    note(seen, rule.day < 0, "from the month's end");
    for year in 2000..2010 {
        note(seen, calendar::year_of(occurrence(year)) > year, "spills into the next year");
        note(seen, calendar::year_of(occurrence(year)) < year, "spills into the previous year");
    }
}

fn zone_shapes(seen: &mut Seen, zone: &Zone) {
    match &zone.rest {
        Rest::Fixed { name, .. } => {
            note(seen, name.is_none(), "fixed without a name");
            note(seen, name.is_some_and(|name| name == zone.id), "fixed, named by its ID's own number");
            note(seen, name.is_some_and(|name| name != zone.id), "fixed");
        }
        Rest::Listed { intervals, tail, .. } => {
            note(seen, tail.is_none(), "listed");
            note(seen, intervals.len() == 4096, "4096 intervals");
            let outermost = |ms: i32| intervals.iter().any(|interval| interval.standard() == ms);
            note(seen, outermost(86_399_999), "the largest standard offset");
            note(seen, outermost(-86_399_999), "the least standard offset");
            if let Some(tail) = tail {
                note(seen, true, "tail");
                rule_shapes(seen, &tail.standard_rule, |year| tail.standard_occurrence(year));
                rule_shapes(seen, &tail.daylight_rule, |year| tail.daylight_occurrence(year));
                // Two standard occurrences in a row: the rules don't alternate.
                for year in 2000..2010 {
                    let (from, to) = (tail.standard_occurrence(year), tail.standard_occurrence(year + 1));
                    let between = (1995..2015).filter(|y| (from..to).contains(&tail.daylight_occurrence(*y))).count();
                    note(seen, between != 1, "rules that don't alternate");
                }
                let together = tail.standard_occurrence(2000) == tail.daylight_occurrence(2000);
                note(seen, together, "rules that fall together");
            }
        }
    }
}

fn transition_form(code: &[u8]) -> &'static str {
    match (code.len(), code[0]) {
        (1, 0) => "start of time",
        (1, 1) => "end of time",
        (9, 2) => "ticks",
        (2 | 3, _) => "hours",
        _ => "minutes",
    }
}

fn code_shapes(seen: &mut Seen, plan: &FilePlan, preferred: &FilePlan) {
    for (field, best) in plan.fields.iter().zip(&preferred.fields) {
        note(seen, true, &format!("field {}", field.id));
        note(seen, true, &format!("padding of {}", field.padding));
        for (number, (code, best)) in field.codes.iter().zip(&best.codes).enumerate() {
            let length = code.bytes.len();
            match code.kind {
                Kind::Offset => note(seen, true, &format!("offset of {length}")),
                Kind::Savings(_) => note(seen, true, &format!("savings of {length}")),
                Kind::TailSavings(_) => note(seen, true, &format!("tail savings of {length}")),
                Kind::Time => note(seen, true, &format!("time of {length}")),
                Kind::Transition(_) => {
                    let end = field.codes.get(number + 1).is_some_and(|next| next.kind == Kind::TailByte);
                    let position = match (end, number) {
                        (true, _) => "end",
                        (false, 3) => "first start",
                        (false, 7) => "second start",
                        (false, _) => "later start",
                    };
                    let form = transition_form(&code.bytes);
                    let choice = if code.bytes == best.bytes { "preferred" } else { "long" };
                    note(seen, true, &format!("{form} at the {position}, {choice}"));
                }
                _ => {}
            }
        }
    }
    let ids: Vec<u8> = plan.fields.iter().map(|field| field.id).collect();
    note(seen, ids.windows(2).any(|pair| pair == [8, 8]), "field 8 twice");
    note(seen, ids.windows(2).any(|pair| pair == [9, 9]), "field 9 twice");
}

fn pool_shapes(seen: &mut Seen, content: &FileContent) {
    let pool = &content.pool;
    let distinct: BTreeSet<&Vec<u8>> = pool.iter().collect();
    note(seen, distinct.len() < pool.len(), "duplicate pool strings");
    note(seen, pool.iter().any(Vec::is_empty), "empty pool string");
    note(seen, pool.is_empty(), "empty pool");
    note(seen, pool.len() == 8192, "8192 pool strings");
    note(seen, pool.iter().any(|string| string.len() == 1024), "string of 1024");
    note(seen, pool.iter().any(|string| !string.is_ascii()), "not ASCII");
    note(seen, content.zones.is_empty(), "no zone");
    note(seen, content.zones.iter().any(|zone| content.id(zone).is_empty()), "empty ID");
    note(seen, content.version.is_none(), "no version text");
    for location in content.locations.iter().chain(&content.locations_1970).flatten() {
        note(seen, location.latitude.abs() == 324_000, "a pole");
        note(seen, location.longitude.abs() == 648_000, "the date line");
        note(seen, location.latitude < 0 && location.longitude < 0, "south and west");
        note(seen, location.countries.is_empty(), "no country");
        note(seen, location.countries.len() > 1, "some countries");
    }
    note(seen, content.locations.as_ref().is_some_and(Vec::is_empty), "field 6 without locations");
    note(seen, content.locations_1970.as_ref().is_some_and(Vec::is_empty), "field 7 without locations");
    let Some(pairs) = &content.aliases else {
        return note(seen, true, "no aliases");
    };
    let string = |number: usize| &pool[number];
    let is_zone = |number: usize| content.zones.iter().any(|zone| content.id(zone) == string(number));
    let is_key = |number: usize| pairs.iter().any(|pair| string(pair.0) == string(number));
    note(seen, pairs.is_empty(), "aliases without pairs");
    for &(key, target) in pairs {
        note(seen, is_zone(target), "an alias of a zone");
        note(seen, is_key(target) && !is_zone(target), "an alias of an alias");
        note(seen, !is_key(target) && !is_zone(target), "an alias of nothing");
        note(seen, string(key) == string(target), "an alias of itself");
        note(seen, is_zone(key), "a zone's ID for an alias");
        note(seen, string(key).is_empty(), "an empty alias");
    }
}

#[test]
fn every_shape_is_generated() {
    let mut seen = Seen::new();
    for seed in 0..1500 {
        let (content, plan, _) = generated(seed, Size::Any);
        assert_eq!(check(&plan.bytes()), (0, 0), "seed {seed}");
        let preferred = second_reader::generate::plan(&content, &mut second_reader::generate::Forms::Preferred);
        pool_shapes(&mut seen, &content);
        code_shapes(&mut seen, &plan, &preferred);
        for zone in &content.zones {
            zone_shapes(&mut seen, zone);
        }
    }
    let mut wanted: Vec<String> = [
        "fixed",
        "fixed without a name",
        "fixed, named by its ID's own number",
        "listed",
        "tail",
        "UTC",
        "wall",
        "standard",
        "on or after",
        "on or before",
        "A without a weekday",
        "P",
        "29 February",
        "29 February with a weekday",
        "from the month's end",
        "spills into the next year",
        "spills into the previous year",
        "rules that don't alternate",
        "rules that fall together",
        "4096 intervals",
        "the largest standard offset",
        "the least standard offset",
        "8192 pool strings",
        "string of 1024",
        "duplicate pool strings",
        "empty pool string",
        "empty pool",
        "not ASCII",
        "no zone",
        "empty ID",
        "no version text",
        "a pole",
        "the date line",
        "south and west",
        "no country",
        "some countries",
        "field 6 without locations",
        "field 7 without locations",
        "no aliases",
        "aliases without pairs",
        "an alias of a zone",
        "an alias of an alias",
        "an alias of nothing",
        "an alias of itself",
        "a zone's ID for an alias",
        "an empty alias",
        "field 8 twice",
        "field 9 twice",
        "start of time at the first start, preferred",
        "end of time at the end, preferred",
    ]
    .map(String::from)
    .to_vec();
    wanted.extend((0..=9).map(|id| format!("field {id}")));
    wanted.extend((0..=4).map(|groups| format!("padding of {groups}")));
    for length in 1..=4 {
        wanted.extend(["offset", "savings", "tail savings", "time"].map(|kind| format!("{kind} of {length}")));
    }
    // The hours form is never long. It needs a finite previous, which the second start has not.
    for (form, choice) in [("minutes", "preferred"), ("ticks", "preferred"), ("ticks", "long")] {
        wanted.extend(["second start", "later start", "end"].map(|at| format!("{form} at the {at}, {choice}")));
    }
    for (form, choice) in [("hours", "preferred"), ("minutes", "long")] {
        wanted.extend(["later start", "end"].map(|at| format!("{form} at the {at}, {choice}")));
    }
    let missing: Vec<&String> = wanted.iter().filter(|shape| !seen.contains(*shape)).collect();
    assert!(missing.is_empty(), "never generated: {missing:?}");
}

#[test]
fn every_number_is_reached_by_damage() {
    let mut checked = BTreeSet::new();
    let mut asked = BTreeSet::new();
    let mut behind_pool = BTreeSet::new();
    let mut in_aliases = BTreeSet::new();
    let mut in_locations = [BTreeSet::new(), BTreeSet::new()];
    for seed in 0..4000 {
        let (content, whole, mut prng) = generated(seed, Size::Small);
        let kind = *prng.pick(&Damage::ALL);
        let file = damaged(&whole, kind, &mut prng);
        let (number, place) = check(&file);
        checked.insert(number);
        // Deep faults: behind field 0, with all fields before it good.
        if place > 4 {
            behind_pool.insert(number);
        }
        match file.get(place as usize) {
            Some(3) if number > 0 && place > 4 => in_aliases.insert(number),
            Some(6) if number > 0 && place > 4 => in_locations[0].insert(number),
            Some(7) if number > 0 && place > 4 => in_locations[1].insert(number),
            _ => false,
        };
        asked.insert(part(&file).0);
        for zone in &content.zones {
            for mark in [Mark::MoreMayCome, Mark::ThisIsAll] {
                let ticks = *prng.pick(&instants(zone, &mut prng.clone()));
                let said = ask(&file, content.id(zone), ticks, mark);
                asked.insert(said.as_ref().map_or_else(|refusal| refusal.number.value(), |_| 0));
                if let Ok(answer) = said {
                    assert!(answer.start <= Transition::Finite(ticks) && Transition::Finite(ticks) < answer.end);
                }
            }
        }
    }
    assert_eq!(checked, BTreeSet::from([0, 2, 3, 4, 5, 6, 7, 8, 9, 10, 11, 13, 19, 20]));
    assert_eq!(behind_pool, BTreeSet::from([2, 4, 5, 7, 8, 9, 10, 11, 13, 19, 20]));
    assert_eq!(in_aliases, BTreeSet::from([2, 4, 5, 7, 8, 9, 19]));
    assert_eq!(in_locations[0], BTreeSet::from([2, 4, 5, 7, 8, 9, 20]));
    assert_eq!(in_locations[1], BTreeSet::from([2, 4, 5, 7, 8, 9, 20]));
    assert_eq!(asked, BTreeSet::from([0, 1, 2, 3, 4, 5, 6, 7, 8, 9, 10, 11, 12]));
}

#[test]
fn every_damage_is_refused_now_and_then() {
    for kind in Damage::ALL {
        let refused = (0..100)
            .filter(|seed| {
                let (_, whole, mut prng) = generated(*seed, Size::Small);
                check(&damaged(&whole, kind, &mut prng)).0 != 0
            })
            .count();
        assert!(refused >= 40, "{kind:?}: {refused} of 100");
    }
}

#[test]
fn cases_are_the_same_for_the_same_seed() {
    let one: Vec<_> = (1..=20).map(|number| case(7, number)).collect();
    let again: Vec<_> = (1..=20).map(|number| case(7, number)).collect();
    assert_eq!(one, again);
    assert_ne!(one[0].file, case(8, 1).file);
    for (number, case) in one.iter().enumerate() {
        assert_eq!(case.expected, lines(&case.file, &case.questions));
        if number % 2 == 0 {
            assert_eq!(check(&case.file), (0, 0));
        }
    }
}

#[test]
fn any_bytes_get_an_answer() {
    // Demand 1: the calls end without a panic on random bytes behind a good start, and a refusal's place is inside.
    let mut prng = second_reader::generate::Prng::new(31);
    for _ in 0..100_000 {
        let mut file = vec![0, 0, 0, 0, 0, 3, 1, 1, b'A', 1];
        file.truncate(prng.below(11));
        let count = prng.below(40);
        file.extend(prng.bytes(count));
        let (_, place) = check(&file);
        assert!(place <= file.len() as u64);
        let ticks = prng.range(FIRST - 1000, LAST + 1000);
        for mark in [Mark::MoreMayCome, Mark::ThisIsAll] {
            if let Err(refusal) = ask(&file, b"A", ticks, mark) {
                assert!(refusal.place <= file.len() as u64);
            }
        }
    }
}
