//! 02, Ask 12: no gap from first to last.

use crate::common::{bytes_of, generated};
use second_reader::generate::{Prng, Size};
use second_reader::transition::{FIRST, LAST};
use second_reader::zone::Rest;
use second_reader::{ask, Answer, Edition, Mark, Transition};
use std::collections::BTreeSet;
use Transition::{EndOfTime, Finite, StartOfTime};

/// "Start at year 1 and ask again at each interval's end." Gives the instants asked and the answers.
fn walk(ask: impl Fn(i64) -> Answer) -> Vec<(i64, Answer)> {
    let mut walked: Vec<(i64, Answer)> = Vec::new();
    let mut ticks = FIRST;
    loop {
        let answer = ask(ticks);
        let end = answer.end;
        walked.push((ticks, answer));
        match end {
            Finite(next) => ticks = next,
            _ => return walked,
        }
    }
}

/// "this meets every instant to the end of 9999 in exactly one interval, ends rise strictly, and the answer is the same at
/// every instant between"
fn has_no_gap(walked: &[(i64, Answer)], ask: impl Fn(i64) -> Answer, prng: &mut Prng) {
    // End of time counts as above all: it is met once, last.
    assert!(walked.windows(2).all(|pair| pair[0].1.end < pair[1].1.end));
    assert_eq!(walked.last().map(|(_, answer)| answer.end), Some(EndOfTime));
    for (number, (ticks, answer)) in walked.iter().enumerate() {
        assert!((FIRST..=LAST).contains(ticks) && answer.start <= Finite(*ticks) && Finite(*ticks) < answer.end);
        assert!(number == 0 || answer.start == Finite(*ticks), "an interval starts where the one before ended");
        let last = if let Finite(end) = answer.end { end - 1 } else { LAST };
        for inside in [last, prng.range(*ticks, last)] {
            assert_eq!(&ask(inside), answer, "between {ticks} and {last}");
        }
    }
    for _ in 0..50 {
        let any = prng.range(FIRST, LAST);
        let holding = walked.iter().filter(|(_, answer)| answer.start <= Finite(any) && Finite(any) < answer.end);
        assert_eq!(holding.map(|(_, answer)| answer).collect::<Vec<_>>(), [&ask(any)]);
    }
}

#[test]
fn from_year_1_to_the_end_of_9999() {
    let mut kinds = BTreeSet::new();
    let mut tails = 0;
    for seed in 150_000..150_120 {
        let (content, plan, mut prng) = generated(seed, Size::Small);
        let file = plan.bytes();
        for zone in &content.zones {
            let kind = match &zone.rest {
                Rest::Fixed { .. } => "fixed",
                Rest::Listed { tail: None, .. } => "listed",
                Rest::Listed { tail: Some(_), .. } => "tail",
            };
            // A tail has up to 20,000 intervals, so a few are enough.
            tails += usize::from(kind == "tail");
            if kind == "tail" && tails > 40 {
                continue;
            }
            let edition = if prng.one_in(2) { Edition::One } else { Edition::Two };
            let asked =
                |ticks: i64| ask(&file, content.id(zone), ticks, Mark::MoreMayCome, edition).expect("an answer");
            let walked = walk(asked);
            has_no_gap(&walked, asked, &mut prng);
            kinds.insert((kind, walked.len() > 1));
        }
    }
    let wanted = [("fixed", false), ("listed", false), ("listed", true), ("tail", true)];
    assert!(kinds.is_superset(&BTreeSet::from(wanted)), "{kinds:?}");
}

#[test]
fn reading_12_1_an_interval_that_ends_at_year_1_is_not_met() {
    // Starts: start of time, and the first tick of year 1.
    let file = bytes_of("V P 0115 00020200003030 02f760800a084a8000 013230 0100");
    let asked = |ticks: i64| ask(&file, b"A", ticks, Mark::ThisIsAll, Edition::Two).expect("an answer");
    let walked = walk(asked);
    assert_eq!(walked.len(), 1);
    assert_eq!((walked[0].1.start, walked[0].1.end, walked[0].1.wall), (Finite(FIRST), EndOfTime, 3_600_000));
    has_no_gap(&walked, asked, &mut Prng::new(12));
    // A fixed zone's one answer is from start of time.
    let fixed = bytes_of("V P A");
    let walked = walk(|ticks| ask(&fixed, b"A", ticks, Mark::ThisIsAll, Edition::Two).expect("an answer"));
    assert_eq!((walked.len(), walked[0].1.start), (1, StartOfTime));
}

#[test]
fn reading_12_4_neighbours_are_not_merged() {
    // The same on both sides of tick 10.
    let file = bytes_of("V P 0115 00020200003030 02000000000000000a 003030 0100");
    let walked = walk(|ticks| ask(&file, b"A", ticks, Mark::MoreMayCome, Edition::One).expect("an answer"));
    let ends: Vec<Transition> = walked.iter().map(|(_, answer)| answer.end).collect();
    assert_eq!(ends, [Finite(10), EndOfTime]);
}
