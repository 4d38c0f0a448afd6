//! 02, Ask 7: the standard offset in every answer.

use crate::common::{all, ask_all, ask_named, generated, hex, part, worked, zone_file};
use second_reader::codes::encode_offset;
use second_reader::generate::{instants, Size};
use second_reader::zone::Rest;
use second_reader::{check, lines, Mark};

#[test]
fn reading_7_1_24_hours_are_outside() {
    worked(&[
        ("check", "V 0003010141 0109 0002010000 5F2F 0100", "10 9"),
        ("check", "V 0003010141 0109 0002010000 0131 0100", "10 9"),
    ]);
}

#[test]
fn reading_7_2_10_at_once() {
    worked(&[
        ("check", "V 0003010141 0107 0002010000 5F2F", "10 9"),
        ("check", "V 0003010141 0108 0002010000 5F2F 03", "10 9"),
        ("check", "V 0003010141 0107 0002010000 5F60", "7 9"),
    ]);
}

#[test]
fn reading_7_3_tails_and_fixed_zones_are_as_before() {
    worked(&[("ask A 0 part", "V 0003010141 0103 00015F", "0 84600000 0 84600000 A@8 start end")]);
}

#[test]
fn reading_7_4_every_zone_on_the_way() {
    worked(&[("ask B 0 all", "V 0005 0201410142 0109 0002010000 5F2F 0100 0103 010130", "10 11")]);
}

#[test]
fn reading_7_5_output_lines() {
    worked(&[("line UTC 0", "V 00050103555443 010400013000", "0 0 0 0 UTC")]);
}

#[test]
fn number_10_by_the_check_and_by_questions() {
    // The second interval's savings; with a tail behind it and without, whole and cut right there.
    let second = "00020200003030 80C2D72F 00 5F2F";
    for more in ["", "0100", "03", "8001", "80c2d72f01", "0100ff"] {
        let file = zone_file(&format!("{second} {more}"));
        assert_eq!((check(&file), part(&file), all(&file)), ((10, 9), (10, 9), (10, 9)), "{more}");
    }
    // The wall offset's own code, the name and the start come before.
    for (data, number) in [
        ("00020200003030 80C2D72F 00 602F", 7),
        ("00020200003030 80C2D72F 01 5F2F", 8),
        ("00020200003030 01 00 5F2F", 10),
        ("00020200003030 03 00 5F2F", 7),
        ("00020200003030 80C2D72F 00 5F", 9),
        ("00020200003030 80C2D72F 00 5F8c", 9),
    ] {
        assert_eq!(check(&zone_file(data)), (number, 9), "{data}");
    }
}

#[test]
fn every_sum_near_24_hours() {
    let code = |ms: i32| encode_offset(i64::from(ms)).expect("an offset");
    let walls = [86_399_999, -86_399_999, 84_600_000, -84_600_000, 43_200_000, -43_200_000, 1, 0];
    let mut seen = [0, 0];
    for wall in walls {
        for near in -3..=3 {
            for standard in [86_400_000 + near, -86_400_000 + near] {
                let savings: i32 = wall - standard;
                if savings.abs() >= 86_400_000 {
                    continue;
                }
                let data = [hex("00020100 00"), code(wall), code(savings), hex("0100")].concat();
                let file = [hex("00000000 0003010141"), vec![1, data.len() as u8], data].concat();
                let good = standard.abs() < 86_400_000;
                seen[usize::from(good)] += 1;
                assert_eq!(check(&file), if good { (0, 0) } else { (10, 9) }, "{wall} {savings}");
                assert_eq!(ask_all(&file, b"A", 0).map(|answer| answer.standard).ok(), good.then_some(standard));
            }
        }
    }
    assert!(seen[0] > 20 && seen[1] > 20, "{seen:?}");
}

#[test]
fn it_is_wall_minus_savings_in_every_answer() {
    let mut asked = 0;
    for seed in 50_000..50_300 {
        let (content, plan, mut prng) = generated(seed, Size::Small);
        let file = plan.bytes();
        for zone in &content.zones {
            let id = content.id(zone);
            for ticks in instants(zone, &mut prng) {
                let answer = ask_all(&file, id, ticks).expect("an answer");
                assert_eq!(answer.standard, answer.wall - answer.savings);
                assert!(answer.standard.abs() < 86_400_000);
                assert_eq!(ask_named(&file, id, ticks, Mark::MoreMayCome), Ok(answer.clone()));
                if let Rest::Listed { end: second_reader::Transition::Finite(end), tail: Some(tail), .. } = &zone.rest {
                    // In the tail it is the one stored.
                    assert!(ticks < *end || answer.standard == tail.standard);
                }
                asked += 1;
            }
            if !id.contains(&b' ') && !id.contains(&b'\n') {
                let answer = ask_all(&file, id, 0).expect("an answer");
                let said = lines(&file, &[id, b" 0\n"].concat());
                let start = format!("0 {} {} {} ", answer.wall, answer.savings, answer.standard);
                assert_eq!(said, [start.as_bytes(), &file[answer.name], b"\n"].concat());
            }
        }
    }
    assert!(asked > 10_000, "{asked}");
}
