//! 02, Ask 1: the plain question expects more.

use crate::common::{ask, ask_plain, generated, pair, worked};
use second_reader::generate::{case, damaged, instants, Damage, Size};
use second_reader::transition::LAST;
use second_reader::{lines, Mark};
use std::collections::BTreeSet;

#[test]
fn reading_1_1_unmarked_lines_are_as_with_part() {
    let file = "V 00050103555443 010400013000";
    let added = "V 00050103555443 010400013000 02";
    let cut = "V 00050103555443 0104000130";
    worked(&[
        ("line GMT 0", file, "1 17"),
        ("line GMT 0 part", file, "1 17"),
        ("line GMT 0 all", file, "12 17"),
        ("line GMT 0", added, "12 17"),
        ("line UTC 0", cut, "1 11"),
        ("line UTC 0 all", cut, "2 11"),
        ("line UTC 0", "", "1 0"),
        ("line UTC 0 all", "", "2 0"),
        ("ask GMT 0 plain", file, "1 17"),
        ("ask GMT 0 plain", added, "12 17"),
        ("ask GMT I64MIN plain", "", "14 0"),
        ("ask UTC 0 plain", "", "1 0"),
    ]);
}

#[test]
fn reading_1_2_check_and_version_text_expect_no_more() {
    worked(&[
        ("check", "V 00", "2 4"),
        ("normalize 99", "V 00", "2 4"),
        ("version", "V 00", "2 4"),
        ("version", "V 0003010141", "12 9"),
        ("check", "", "2 0"),
    ]);
}

#[test]
fn plain_is_the_question_marked_more_may_come() {
    let mut given = BTreeSet::new();
    for seed in 0..300 {
        let (content, plan, mut prng) = generated(seed, Size::Small);
        let whole = plan.bytes();
        let kind = *prng.pick(&Damage::ALL);
        let bad = damaged(&plan, kind, &mut prng);
        let mut asked = vec![(b"No/Such_Zone".to_vec(), 0), (Vec::new(), LAST + 1)];
        for zone in &content.zones {
            let ticks = *prng.pick(&instants(zone, &mut prng.clone()));
            asked.push((content.id(zone).to_vec(), ticks));
        }
        for (zone, ticks) in asked {
            for file in [&whole, &bad] {
                // Each prefix of a small file, a few of one that passes a largest size.
                for length in (0..=file.len()).step_by(1 + file.len() / 2000) {
                    let plain = ask_plain(&file[..length], &zone, ticks);
                    assert_eq!(plain, ask(&file[..length], &zone, ticks, Mark::MoreMayCome), "seed {seed}, {length}");
                    given.insert(pair(&plain).0);
                }
            }
        }
    }
    assert_eq!(given, BTreeSet::from([0, 1, 3, 4, 5, 6, 7, 8, 9, 10, 11, 12, 14]));
}

#[test]
fn a_line_without_a_mark_is_the_line_with_part() {
    let mut unmarked = 0;
    for number in 1..=200 {
        let case = case(11, number);
        for line in case.questions.split(|byte| *byte == b'\n') {
            // ID, ticks and nothing more; a mark may make a long line too long.
            let words = line.split(|byte| *byte == b' ').count();
            if words == 2 && line.len() < 2000 {
                let marked = [line, b" part\n"].concat();
                assert!(lines(&case.file, &marked) == lines(&case.file, &[line, b"\n"].concat()), "{line:?}");
                unmarked += 1;
            }
        }
    }
    assert!(unmarked > 1_500, "{unmarked}");
}
