//! Demand 2: every instant falls in exactly one interval, the one that the content says.

use crate::common::{ask_all, generated, utc};
use second_reader::generate::{instants, FileContent, FilePlan, Size};
use second_reader::recurrence::Tail;
use second_reader::transition::{FIRST, LAST};
use second_reader::zone::{Rest, Zone};
use second_reader::{ask, Answer, Edition, Mark, Transition};
use Transition::{EndOfTime, Finite, StartOfTime};

/// All instants of a tail's rules, over all years that can matter.
struct Occurrences {
    standard: Vec<i64>,
    daylight: Vec<i64>,
}

impl Occurrences {
    fn of(tail: &Tail) -> Occurrences {
        Occurrences {
            standard: (-5..=10_005).map(|year| tail.standard_occurrence(year)).collect(),
            daylight: (-5..=10_005).map(|year| tail.daylight_occurrence(year)).collect(),
        }
    }
}

/// The interval that the content says: wall, savings, standard, name's pool number, start, end.
fn expected(
    zone: &Zone,
    tail_lists: Option<&Occurrences>,
    ticks: i64,
) -> (i32, i32, i32, usize, Transition, Transition) {
    let (intervals, end, tail) = match &zone.rest {
        // A fixed zone without a name has its ID for one.
        Rest::Fixed { offset, name } => return (*offset, 0, *offset, name.unwrap_or(zone.id), StartOfTime, EndOfTime),
        Rest::Listed { intervals, end, tail } => (intervals, *end, tail),
    };
    let starts: Vec<Transition> = intervals.iter().map(|interval| interval.start).chain([end]).collect();
    for (interval, bounds) in intervals.iter().zip(starts.windows(2)) {
        if bounds[0] <= Finite(ticks) && Finite(ticks) < bounds[1] {
            let standard = interval.wall - interval.savings;
            return (interval.wall, interval.savings, standard, interval.name, bounds[0], bounds[1]);
        }
    }
    let (Some(tail), Some(lists), Finite(tail_start)) = (tail, tail_lists, end) else {
        panic!("no interval holds {ticks}");
    };
    let next = |list: &[i64]| list.iter().copied().filter(|at| *at > ticks).min().expect("a later occurrence");
    let last = |list: &[i64]| list.iter().copied().filter(|at| *at <= ticks).max().expect("an earlier occurrence");
    let (next_standard, next_daylight) = (next(&lists.standard), next(&lists.daylight));
    let first_next = next_standard.min(next_daylight);
    let tail_end = if first_next > LAST { EndOfTime } else { Finite(first_next) };
    let start = Finite(last(&lists.standard).max(last(&lists.daylight)).max(tail_start));
    match next_daylight > next_standard {
        true => (tail.standard + tail.savings, tail.savings, tail.standard, tail.daylight_name, start, tail_end),
        false => (tail.standard, 0, tail.standard, tail.standard_name, start, tail_end),
    }
}

/// Where each pool string stands in a generated file: the field is the first, and its data ends with it.
fn pool_places(content: &FileContent, plan: &FilePlan, file: &[u8]) -> Vec<std::ops::Range<usize>> {
    let prefix = |length: usize| if length < 128 { 1 } else { 2 };
    let data: usize =
        prefix(content.pool.len()) + content.pool.iter().map(|s| prefix(s.len()) + s.len()).sum::<usize>();
    let mut at = plan.extents()[0].end - data + prefix(content.pool.len());
    let mut places = Vec::new();
    for string in &content.pool {
        at += prefix(string.len());
        places.push(at..at + string.len());
        assert_eq!(file[at..at + string.len()], string[..]);
        at += string.len();
    }
    places
}

#[test]
fn answers_are_those_of_the_content() {
    let mut asked = 0;
    for seed in 2000..2400 {
        let (content, plan, mut prng) = generated(seed, Size::Any);
        let file = plan.bytes();
        if file.len() > 50_000 {
            continue;
        }
        let places = pool_places(&content, &plan, &file);
        for zone in &content.zones {
            let lists = match &zone.rest {
                Rest::Listed { tail: Some(tail), .. } => Some(Occurrences::of(tail)),
                _ => None,
            };
            for ticks in instants(zone, &mut prng) {
                let (wall, savings, standard, name, start, end) = expected(zone, lists.as_ref(), ticks);
                for edition in [Edition::One, Edition::Two] {
                    let answer = ask(&file, content.id(zone), ticks, Mark::ThisIsAll, edition).expect("an answer");
                    // Under 1 a fixed zone shows its ID.
                    let by_id = edition == Edition::One && matches!(zone.rest, Rest::Fixed { .. });
                    let name = places[if by_id { zone.id } else { name }].clone();
                    let wanted = Answer { wall, savings, standard, name, start, end };
                    assert_eq!(answer, wanted, "seed {seed}, {zone:?} at {ticks}");
                }
                assert!(start <= Finite(ticks) && Finite(ticks) < end);
                asked += 1;
            }
        }
    }
    assert!(asked > 20_000, "{asked}");
}

/// From `from` to `until`, interval after interval: each begins where the one before ended, and its first and last
/// ticks give the same answer. Gives how many there were.
fn walk(ask: impl Fn(i64) -> Answer, from: i64, until: i64) -> usize {
    let mut ticks = from;
    let mut walked = 0;
    loop {
        walked += 1;
        let answer = ask(ticks);
        let last = match answer.end {
            Finite(end) => end - 1,
            _ => LAST,
        };
        assert!(ticks <= last, "an interval holds the instant asked");
        for inside in [last, ticks + (last - ticks) / 2, ticks + (last - ticks).min(1)] {
            assert_eq!(ask(inside), answer, "between {ticks} and {last}");
        }
        if ticks > from {
            assert_eq!(answer.start, Finite(ticks), "begins where the one before ended");
        }
        if answer.end == EndOfTime || last >= until {
            return walked;
        }
        assert!(last < LAST);
        ticks = last + 1;
    }
}

#[test]
fn intervals_follow_one_another() {
    let mut walked = 0;
    for seed in 3000..3200 {
        let (content, plan, _) = generated(seed, Size::Small);
        let file = plan.bytes();
        for zone in &content.zones {
            let ask = |ticks: i64| ask_all(&file, content.id(zone), ticks).expect("an answer");
            let last_bound = match &zone.rest {
                Rest::Listed { end: Finite(end), .. } => *end,
                _ => FIRST,
            };
            // The listed part and some years of the tail, then the last years.
            walked += walk(ask, FIRST, last_bound.saturating_add(3_000_000_000_000_000).min(LAST));
            walked += walk(ask, utc(9985, 1, 1, 0, 0, 0), LAST);
        }
    }
    assert!(walked > 5_000, "{walked}");
}

#[test]
fn a_tail_from_year_1_to_9999() {
    // Generated tails, moved to start one tick after the first instant.
    let mut tails = 0;
    for seed in 4000..4040 {
        let (content, _, _) = generated(seed, Size::Small);
        for zone in &content.zones {
            let Rest::Listed { tail: Some(tail), .. } = &zone.rest else {
                continue;
            };
            let mut early = zone.clone();
            let first = second_reader::zone::Interval { start: StartOfTime, name: 0, wall: 0, savings: 0 };
            early.rest = Rest::Listed { intervals: vec![first], end: Finite(FIRST + 1), tail: Some(*tail) };
            let ask = |ticks: i64| {
                let holding = early.at(ticks);
                let interval = holding.interval;
                // The pool number stands for the name's place.
                let name = interval.name..interval.name;
                let second_reader::zone::Interval { start, wall, savings, .. } = interval;
                Answer { wall, savings, standard: interval.standard(), name, start, end: holding.end }
            };
            let count = walk(ask, FIRST, LAST);
            // One or two changes a year, the tail's first part and the listed interval.
            assert!((9_990..=20_010).contains(&count), "{count}");
            tails += 1;
        }
    }
    assert!(tails > 20, "{tails}");
}
