use crate::common::{closed_form_day, hex, utc};
use second_reader::generate::{random_tail, Prng};
use second_reader::recurrence::{parse_rule, parse_tail, Rule, Tail};
use second_reader::transition::{FIRST, LAST};
use second_reader::Number::{BadCode, BadData, BadRecurrence};
use second_reader::Transition;

fn rule(code: &str) -> Rule {
    let bytes = hex(code);
    let (rule, length) = parse_rule(&bytes).expect("a good rule");
    assert_eq!(length, bytes.len());
    assert_eq!(rule.byte(), bytes[0]);
    rule
}

/// The instant in `year` of a rule in UTC.
fn falls(code: &str, year: i64) -> i64 {
    rule(code).occurrence(year, 0, 0)
}

#[test]
fn worked_rules() {
    // Worked in 01: last Sunday of March, 01:00 UTC, and Sunday on or after 8 March, 02:00 wall.
    assert_eq!(falls("1C030132", 2024), 1_711_846_800 * 10_000_000);
    assert_eq!(falls("1C030132", 2024), utc(2024, 3, 31, 1, 0, 0));
    assert_eq!(rule("3E031034").occurrence(2024, -18_000_000, -18_000_000), utc(2024, 3, 10, 7, 0, 0));
}

#[test]
fn bound_date_counts_and_moves_go_both_ways() {
    // 31 March 2024 is a Sunday: on or after and on or before it are it.
    assert_eq!(falls("1E033E30", 2024), utc(2024, 3, 31, 0, 0, 0));
    assert_eq!(falls("1C033E30", 2024), utc(2024, 3, 31, 0, 0, 0));
    // Monday on or after 31 March is 1 April, on or before it 25 March.
    assert_eq!(falls("06033E30", 2024), utc(2024, 4, 1, 0, 0, 0));
    assert_eq!(falls("04033E30", 2024), utc(2024, 3, 25, 0, 0, 0));
    // No weekday: A does nothing.
    assert_eq!(falls("00033E30", 2024), utc(2024, 3, 31, 0, 0, 0));
    assert_eq!(falls("02033E30", 2024), utc(2024, 3, 31, 0, 0, 0));
}

#[test]
fn extra_day_comes_after_the_weekday_move() {
    // Sunday on or before 30 March 2024 (Saturday) is the 24th, then a day: the 25th, not the 31st.
    assert_eq!(falls("1D033C30", 2024), utc(2024, 3, 25, 0, 0, 0));
    // Sunday on or after 31 March 2024 is the 31st, then a day: 1 April, not 7 April.
    assert_eq!(falls("1F033E30", 2024), utc(2024, 4, 1, 0, 0, 0));
}

#[test]
fn days_from_the_end_and_29_february() {
    // -1 is the last day, -28 in February the second or the first.
    assert_eq!(falls("00020130", 2024), utc(2024, 2, 29, 0, 0, 0));
    assert_eq!(falls("00020130", 2023), utc(2023, 2, 28, 0, 0, 0));
    assert_eq!(falls("00023730", 2024), utc(2024, 2, 2, 0, 0, 0));
    assert_eq!(falls("00023730", 2023), utc(2023, 2, 1, 0, 0, 0));
    // "29 February is the 28th in common years", before the move: reading 22.
    assert_eq!(falls("00023A30", 2024), utc(2024, 2, 29, 0, 0, 0));
    assert_eq!(falls("00023A30", 2100), utc(2100, 2, 28, 0, 0, 0));
    assert_eq!(falls("1E023A30", 2021), utc(2021, 2, 28, 0, 0, 0));
    assert_eq!(falls("1E023A30", 2022), utc(2022, 3, 6, 0, 0, 0));
    assert_eq!(falls("1E023A30", 2024), utc(2024, 3, 3, 0, 0, 0));
}

#[test]
fn rules_spill_over_the_end_of_the_year() {
    // Sunday on or after 31 December, a day more, 23:30 standard in -12:00.
    assert_eq!(rule("5F0C3E5F").occurrence(2022, -43_200_000, 0), utc(2023, 1, 3, 11, 30, 0));
    // Sunday on or before 1 January 2022 (Saturday): 26 December 2021.
    assert_eq!(falls("1C010230", 2022), utc(2021, 12, 26, 0, 0, 0));
    assert_eq!(falls("1F0C3E30", 1), utc(2, 1, 7, 0, 0, 0));
    assert_eq!(falls("00010230", 0), utc(0, 1, 1, 0, 0, 0));
    assert_eq!(falls("00020130", -4), utc(-4, 2, 29, 0, 0, 0));
}

#[test]
fn modes_subtract_their_offset() {
    let (standard, other) = (3_600_000, 7_200_000);
    assert_eq!(rule("000A0230").occurrence(2024, standard, other), utc(2024, 10, 1, 0, 0, 0));
    assert_eq!(rule("200A0230").occurrence(2024, standard, other), utc(2024, 9, 30, 22, 0, 0));
    assert_eq!(rule("400A0230").occurrence(2024, standard, other), utc(2024, 9, 30, 23, 0, 0));
}

#[test]
fn wall_times_take_the_other_rules_offset() {
    // New York's tail: EST -05:00, Sunday on or after 1 November 02:00 wall; EDT, Sunday on or after 8 March.
    let (tail, _) = parse_tail(&hex("26 00 3E0B0234 01 3E031034 32")).expect("a good tail");
    assert_eq!(tail.daylight_occurrence(2024), utc(2024, 3, 10, 7, 0, 0));
    assert_eq!(tail.standard_occurrence(2024), utc(2024, 11, 3, 6, 0, 0));
}

#[test]
fn refused_rules() {
    for (code, number) in [
        ("", BadData),
        // "A set top bit or MM 3 gives 11", as soon as read.
        ("80", BadRecurrence),
        ("9C030132", BadRecurrence),
        ("60", BadRecurrence),
        ("7C030132", BadRecurrence),
        ("1C", BadData),
        ("1C80", BadData),
        ("1C8300", BadCode),
        ("1C00", BadRecurrence),
        ("1C0D", BadRecurrence),
        ("1C8301", BadRecurrence),
        ("1C03", BadData),
        ("1C0300", BadRecurrence),
        ("1C0340", BadRecurrence),
        ("1C033F", BadRecurrence),
        ("1C02", BadData),
        ("1C023C", BadRecurrence),
        ("1C0239", BadRecurrence),
        ("1C043E", BadRecurrence),
        ("1C043D", BadRecurrence),
        ("1C0301", BadData),
        ("1C0301E0", BadCode),
        ("1C030160", BadCode),
        // Below 00:00.
        ("1C03012F", BadRecurrence),
        ("1C0301C5265BFF", BadRecurrence),
    ] {
        assert_eq!(parse_rule(&hex(code)).map(|_| ()), Err(number), "{code}");
    }
    // The outermost good ones.
    for code in ["1C01025F", "1C0C3E30", "1C023A30", "1C023730", "1C033D30", "1C043C30", "1C043B30", "1C0301CA4CB7FF"] {
        rule(code);
    }
}

#[test]
fn tail_sum_lies_inside_a_day() {
    for (code, number) in [
        // +23:30 and +0:30; -23:30 and -0:30; one millisecond less is good.
        ("5F 00 1C030132 00 1C0A0132 31", Some(BadRecurrence)),
        ("01 00 1C030132 00 1C0A0132 2F", Some(BadRecurrence)),
        ("5F 00 1C030132 00 1C0A0132 C541D33F", None),
        ("01 00 1C030132 00 1C0A0132 C50AE4C1", None),
        ("5F 00 1C030132 00 1C0A0132 E0", Some(BadCode)),
        ("5F 00 1C030132 00 1C0A0132", Some(BadData)),
    ] {
        assert_eq!(parse_tail(&hex(code)).err(), number, "{code}");
    }
}

/// A rule's instant in a year, found by looking at days one by one in the closed-form calendar.
fn by_looking(rule: &Rule, year: i64, subtract_ms: i64) -> i64 {
    let month = i64::from(rule.month);
    let next_month = if month == 12 { (year + 1, 1) } else { (year, month + 1) };
    let first = closed_form_day(year, month, 1);
    let last = closed_form_day(next_month.0, next_month.1, 1) - 1;
    let wanted = i64::from(rule.day);
    let bound = if wanted > 0 { (first + wanted - 1).min(last) } else { last + 1 + wanted };
    // 5 January 1970 was a Monday.
    let is_weekday = |day: &i64| rule.weekday == 0 || (day - 4).rem_euclid(7) + 1 == i64::from(rule.weekday);
    let date = match (rule.weekday, rule.on_or_after) {
        (0, _) => bound,
        (_, true) => (bound..bound + 7).find(is_weekday).expect("a week has every weekday"),
        (_, false) => (bound - 6..=bound).rev().find(is_weekday).expect("a week has every weekday"),
    };
    let ms = (date + i64::from(rule.extra_day)) * 86_400_000 + i64::from(rule.time) - subtract_ms;
    ms * 10_000
}

fn all_occurrences(tail: &Tail) -> (Vec<i64>, Vec<i64>) {
    let years = -5..=10_005;
    let wall = |rule: &Rule, other: i32| match rule.byte() >> 5 {
        0 => 0,
        1 => i64::from(other),
        _ => i64::from(tail.standard),
    };
    let to_subtract_standard = wall(&tail.standard_rule, tail.standard + tail.savings);
    let to_subtract_daylight = wall(&tail.daylight_rule, tail.standard);
    (
        years.clone().map(|year| by_looking(&tail.standard_rule, year, to_subtract_standard)).collect(),
        years.map(|year| by_looking(&tail.daylight_rule, year, to_subtract_daylight)).collect(),
    )
}

#[test]
fn tails_say_what_all_years_say() {
    let mut prng = Prng::new(21);
    for _ in 0..150 {
        let tail = random_tail(&mut prng, 1);
        let (standard, daylight) = all_occurrences(&tail);
        let tail_start = prng.range(FIRST, LAST);
        let mut instants = vec![tail_start, LAST, LAST - 1];
        for list in [&standard, &daylight] {
            assert!(list.is_sorted_by(|earlier, later| earlier < later), "{tail:?}");
            instants.extend(list.iter().flat_map(|at| [at - 1, *at, at + 1]));
        }
        for instant in instants.into_iter().filter(|at| (tail_start..=LAST).contains(at)) {
            let next = |list: &[i64]| list[list.partition_point(|at| *at <= instant)];
            let last = |list: &[i64]| list[list.partition_point(|at| *at <= instant) - 1];
            let end = next(&standard).min(next(&daylight));
            let in_force = tail.at(tail_start, instant);
            assert_eq!(in_force.daylight, next(&daylight) > next(&standard), "{tail:?} at {instant}");
            assert_eq!(in_force.start, last(&standard).max(last(&daylight)).max(tail_start));
            let expected = if end > LAST { Transition::EndOfTime } else { Transition::Finite(end) };
            assert_eq!(in_force.end, expected, "{tail:?} at {instant}");
        }
    }
}
