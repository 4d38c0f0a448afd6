//! The examples of the numbered points of `docs/DECISIONS.md`, each with the result that was chosen, and examples for entries that give none.
//! Readings 26 to 31 are in `program.rs`, 33 to 35 in `codes.rs`.

use crate::common::{all, ask, ask_all, asked, hex, part, utc, zone_file, A};
use second_reader::transition::LAST;
use second_reader::{check, version_text, Answer, Mark, Refusal, Transition};

fn with(text: &str) -> Vec<u8> {
    hex(&format!("{A} {text}"))
}

fn at(file: &[u8], ticks: i64) -> Answer {
    ask_all(file, b"A", ticks).expect("an answer")
}

fn all_three(file: &[u8], number: u8, place: u64) {
    assert_eq!((check(file), part(file), all(file)), ((number, place), (number, place), (number, place)));
}

/// A zone "A" whose tail starts at 1970 with this standard offset, rules and savings.
fn tail_file(tail: &str) -> Vec<u8> {
    zone_file(&format!("00020100003030 e09bd12a 01 {tail}"))
}

#[test]
fn reading_1_13_in_the_second_zones_turn() {
    let file = hex("00000000 0007 03014101420141 0104 00013000 0104 02013200 00");
    assert_eq!(check(&file), (13, 19));
    assert_eq!(asked(&file, b"B", 0, Mark::ThisIsAll), (5, 25));
    assert_eq!(asked(&file, b"B", 0, Mark::MoreMayCome), (5, 25));
}

#[test]
fn reading_2_empty_pool() {
    assert_eq!(check(&hex("00000000 0000")), (9, 4));
    assert_eq!(check(&hex("00000000 000100")), (0, 0));
}

#[test]
fn reading_3_hours_after_start_of_time() {
    all_three(&hex("00000000 0003010141 010e 0002020000303080010030300100"), 7, 9);
    // The first transition in the hours form.
    all_three(&with("0109 000201 8001 00 30 30 01"), 7, 9);
}

#[test]
fn reading_4_the_ends_code_and_its_use() {
    all_three(&with("0109 00020100003030 8001"), 7, 9);
    all_three(&with("0108 00020100003030 00"), 9, 9);
    all_three(&with("0109 00020100003030 00 02"), 9, 9);
    all_three(&with("0109 00020100003030 00 00"), 10, 9);
    // 10 comes before the tail's faults and the leftovers.
    all_three(&with("010a 00020100003030 01 01 e0"), 10, 9);
    all_three(&with("010a 00020100003030 00 00 ff"), 10, 9);
    all_three(&with("0108 00020100003030 03"), 7, 9);
}

#[test]
fn reading_5_each_part_of_a_rule_at_once() {
    all_three(&hex("00000000 0003010141 0110 0002010000303080c2d72f0130001c00"), 11, 9);
    all_three(&hex("00000000 0003010141 010f 0002010000303080c2d72f01300080"), 11, 9);
}

#[test]
fn reading_6_cut_codes() {
    all_three(&with("0103 00018c"), 9, 9);
    all_three(&with("0103 0001e0"), 7, 9);
    all_three(&with("0105 0001dfffff"), 9, 9);
    all_three(&with("0105 000201027f"), 9, 9);
    all_three(&with("0105 8080808080"), 7, 9);
    all_three(&with("0105 8080808000"), 7, 9);
    all_three(&with("0104 80808080"), 9, 9);
}

#[test]
fn reading_7_the_size_is_a_count() {
    let file = hex("00000000 00 8080808080");
    all_three(&file, 7, 4);
    let cut = &file[..file.len() - 1];
    assert_eq!((check(cut), part(cut), all(cut)), ((2, 4), (1, 4), (2, 4)));
}

/// `V` and a pool whose field ends at 4,194,304 exactly.
fn full_file() -> Vec<u8> {
    let size = 4_194_304 - 4 - 1 - 4;
    // Strings of 1,024 bytes take 1,026; the last two share what is left.
    let whole = (size - 2) / 1026 - 1;
    let left = size - 2 - whole * 1026;
    let short = left - 1026 / 2 - 2;
    let mut file = hex("00000000 00");
    let count = |value: usize| second_reader::codes::encode_count(value as i64).expect("a count");
    file.extend(count(size));
    file.extend(count(whole + 2));
    for length in vec![1024; whole].into_iter().chain([short - 2, 1026 / 2]) {
        file.extend(count(length));
        file.extend(vec![b'x'; length]);
    }
    file
}

#[test]
fn reading_8_the_limit_waits_for_the_size() {
    let full = full_file();
    assert_eq!(full.len(), 4_194_304);
    assert_eq!(check(&full), (0, 0));
    let end = full.len() as u64;
    let behind = |text: &str| [full.clone(), hex(text)].concat();
    assert_eq!(check(&behind("c8")), (2, end));
    assert_eq!(check(&behind("c800")), (4, end));
    // A padded size (02, Ask 6).
    assert_eq!(check(&behind("c88000")), (4, end));
    assert_eq!(check(&behind("c8808080808000")), (7, end));
    // The same in a zone's field, asked.
    assert_eq!((part(&behind("01")), all(&behind("01"))), ((1, end), (2, end)));
    assert_eq!((part(&behind("0180")), all(&behind("0180"))), ((1, end), (2, end)));
    all_three(&behind("0100"), 4, end);
    all_three(&behind("018000"), 4, end);
    all_three(&behind("018080808080"), 7, end);
    // "The slice may be longer": a question stops at a higher ID.
    assert_eq!(part(&behind("c8")), (12, end));
    assert_eq!(part(&full), (1, end));
}

#[test]
fn reading_9_version() {
    all_three(&hex("00000001"), 3, 0);
    let cut = hex("01");
    assert_eq!((check(&cut), part(&cut), all(&cut)), ((2, 0), (1, 0), (2, 0)));
}

#[test]
fn reading_10_the_version_alone() {
    let file = hex("00000000");
    assert_eq!((check(&file), part(&file), all(&file)), ((6, 4), (1, 4), (12, 4)));
    let refusal: Refusal = version_text(&file).expect_err("no field");
    assert_eq!((refusal.number.value(), refusal.place), (6, 4));
}

#[test]
fn reading_11_14_first() {
    assert_eq!(asked(&[], b"A", LAST + 1, Mark::MoreMayCome), (14, 0));
    assert_eq!(asked(&[], b"A", LAST + 1, Mark::ThisIsAll), (14, 0));
}

#[test]
fn reading_12_ids_that_repeat() {
    assert_eq!(check(&with("0800 0800 0900 ff00 ff00")), (0, 0));
    assert_eq!(check(&with("070100 070100")), (5, 12));
}

#[test]
fn reading_13_a_higher_id_before_all_of_its_field() {
    let file = with("028000");
    // The check reads a padded size of 0 (02, Ask 6).
    assert_eq!((check(&file), part(&file), all(&file)), ((9, 9), (12, 9), (12, 9)));
    let file = with("028080808080");
    assert_eq!((check(&file), part(&file), all(&file)), ((7, 9), (12, 9), (12, 9)));
}

#[test]
fn reading_14_tail_sum() {
    all_three(&tail_file("5f 00 1c030132 00 1c0a0132 31"), 11, 9);
    assert_eq!(check(&tail_file("5f 00 1c030132 00 1c0a0132 30")), (0, 0));
}

#[test]
fn reading_15_counts_at_once() {
    all_three(&with("0103 000200"), 10, 9);
    all_three(&with("0104 00028120"), 4, 9);
    all_three(&hex("00000000 0002 8140"), 4, 4);
    // Text: code (7, 9), 4, 9, 8.
    all_three(&hex("00000000 0003 018000"), 7, 4);
    all_three(&hex("00000000 0002 0180"), 9, 4);
    all_three(&hex("00000000 0004 018108ff"), 4, 4);
    all_three(&hex("00000000 0003 0102ff"), 9, 4);
    all_three(&hex("00000000 0003 0101ff"), 8, 4);
}

#[test]
fn reading_16_asked_ids() {
    let file = with("0104 00013000");
    assert_eq!(asked(&file, b"\xff", 0, Mark::ThisIsAll), (12, 15));
    assert_eq!(asked(&file, &[b'A'; 5000], 0, Mark::MoreMayCome), (1, 15));
    assert_eq!(asked(&file, b"", 0, Mark::ThisIsAll), (12, 15));
    let empty = hex("00000000 0002 0100 0104 00013000");
    assert_eq!(asked(&empty, b"", 0, Mark::MoreMayCome), (0, 0));
}

#[test]
fn reading_17_doubles_before_the_asked_zone() {
    let file = hex("00000000 0005 0201410142 0104 01013000 0104 01013200 0104 00013400 0104 00013600 0100");
    assert_eq!(check(&file), (13, 17));
    assert_eq!(at(&file, 0).wall, 7_200_000);
    assert_eq!(ask_all(&file, b"B", 0).map(|answer| answer.wall), Ok(0));
}

#[test]
fn reading_18_what_a_tails_answer_carries() {
    // Pool "A", "S", "D"; standard +01:00 from October, daylight from March, savings +01:00.
    let zone = hex("00020100003030 e09bd12a 01 32 01 1c0a0132 02 1c030132 32");
    let file = [hex("00000000 0007 03 0141 0153 0144"), vec![1, zone.len() as u8], zone].concat();
    let summer = at(&file, utc(2024, 7, 1, 0, 0, 0));
    assert_eq!((summer.wall, summer.savings, summer.name), (7_200_000, 3_600_000, 12..13));
    assert_eq!(summer.start, Transition::Finite(utc(2024, 3, 31, 1, 0, 0)));
    assert_eq!(summer.end, Transition::Finite(utc(2024, 10, 27, 1, 0, 0)));
    let winter = at(&file, utc(2024, 10, 27, 1, 0, 0));
    assert_eq!((winter.wall, winter.savings, winter.name), (3_600_000, 0, 10..11));
    // "but not before the tail's start"
    let first = at(&file, 0);
    assert_eq!((first.wall, first.start), (3_600_000, Transition::Finite(0)));
    assert_eq!(first.end, Transition::Finite(utc(1970, 3, 29, 1, 0, 0)));
    assert_eq!(at(&file, -1).end, Transition::Finite(0));
}

#[test]
fn reading_19_occurrences_past_the_range_take_part() {
    let file = hex("00000000 0003010141 0118 0002010000303080c2d72f 01 32 00 1c030132 00 1c0a0132 32");
    let answer = at(&file, LAST);
    assert_eq!((answer.wall, answer.savings), (7_200_000, 3_600_000));
    assert_eq!(answer.start, Transition::Finite(utc(9999, 10, 31, 1, 0, 0)));
    assert_eq!(answer.end, Transition::EndOfTime);
}

#[test]
fn reading_20_intervals_are_not_merged() {
    // Both rules on 1 March: always standard, yet each year is an interval of its own.
    let file = tail_file("32 00 00030230 00 00030230 32");
    let answer = at(&file, utc(2000, 1, 1, 0, 0, 0));
    assert_eq!((answer.wall, answer.savings), (3_600_000, 0));
    assert_eq!(answer.start, Transition::Finite(utc(1999, 3, 1, 0, 0, 0)));
    assert_eq!(answer.end, Transition::Finite(utc(2000, 3, 1, 0, 0, 0)));
    // The last listed interval has what the tail has, and ends at its start.
    let file = tail_file("30 00 00030230 00 00030230 30");
    assert_eq!(at(&file, -1).end, Transition::Finite(0));
    assert_eq!(at(&file, 0).start, Transition::Finite(0));
}

#[test]
fn reading_21_rules_that_do_not_alternate() {
    // Standard: Sunday on or before 1 January, so 1 January 2017 and 31 December 2017. Daylight: 31 December 12:00, so
    // never between those two.
    let file = tail_file("30 00 1c010230 00 000c3e48 32");
    let between = at(&file, utc(2017, 6, 1, 0, 0, 0));
    assert_eq!((between.wall, between.savings), (3_600_000, 3_600_000));
    assert_eq!(between.start, Transition::Finite(utc(2017, 1, 1, 0, 0, 0)));
    assert_eq!(between.end, Transition::Finite(utc(2017, 12, 31, 0, 0, 0)));
    let after = at(&file, utc(2017, 12, 31, 0, 0, 0));
    assert_eq!((after.wall, after.savings), (0, 0));
    assert_eq!(after.end, Transition::Finite(utc(2017, 12, 31, 12, 0, 0)));
}

#[test]
fn reading_22_29_february_with_a_weekday() {
    let file = tail_file("30 00 1e023a30 00 00070230 32");
    let answer = at(&file, utc(2021, 3, 1, 0, 0, 0));
    assert_eq!(answer.start, Transition::Finite(utc(2021, 2, 28, 0, 0, 0)));
}

#[test]
fn reading_23_wall_is_the_other_rules() {
    // Both rules on 1 March, 00:00 wall; standard 0, savings +2 h. Standard's instant uses +2 h: 28 February 22:00.
    let file = tail_file("30 00 20030230 00 20030230 34");
    let answer = at(&file, utc(2001, 2, 28, 23, 0, 0));
    assert_eq!(answer.start, Transition::Finite(utc(2001, 2, 28, 22, 0, 0)));
    assert_eq!(answer.end, Transition::Finite(utc(2001, 3, 1, 0, 0, 0)));
    assert_eq!((answer.wall, answer.savings), (0, 0));
    let rest_of_year = at(&file, utc(2001, 6, 1, 0, 0, 0));
    assert_eq!((rest_of_year.wall, rest_of_year.savings), (7_200_000, 7_200_000));
}

#[test]
fn reading_24_the_ends_previous_is_the_last_start() {
    // Starts: start of time, 1970; the end 128 hours later.
    let file = zone_file("000202 00003030 e09bd12a003030 8001 01 30 00 000a0230 00 00030230 32");
    assert_eq!(check(&file), (0, 0));
    assert_eq!(at(&file, 0).end, Transition::Finite(128 * 36_000_000_000));
}

#[test]
fn reading_25_the_names_place_is_that_of_its_number() {
    let file = hex("00000000 0007 03 0141 0141 0141 0104 00013002");
    assert_eq!(at(&file, 0).name, 12..13);
}

#[test]
fn against_the_published_format() {
    // a: 1048576 to 2097151 are hours.
    let file = zone_file("000203 00003030 e09bd12a003030 808040003030 0100");
    all_three(&zone_file("000203 00003030 808040003030 808040003030 0100"), 7, 9);
    assert_eq!(at(&file, 0).end, Transition::Finite(1_048_576 * 36_000_000_000));
    // b: a fixed zone's name may be absent (02, Ask 2).
    all_three(&with("0103 000130"), 0, 0);
    // c: no field 2 is fine, a second 6 or 7 isn't.
    assert_eq!(check(&with("060100 060100")), (5, 12));
    // f: a longer count for a month or day is judged by its range.
    let file = tail_file("30 00 1c8301 00 00 00");
    all_three(&file, 11, 9);
    assert_eq!(ask(&file, b"A", 0, Mark::MoreMayCome).map_err(|refusal| refusal.place), Err(9));
}
