//! 02, Ask 2: fixed zones without a name.

use crate::common::{ask, ask_all, asked, generated, hex, pair, worked};
use second_reader::file::read_file;
use second_reader::generate::{plan, Forms, Size};
use second_reader::transition::{FIRST, LAST};
use second_reader::zone::{Rest, Zone};
use second_reader::{check, lines, rewrite, Mark};

#[test]
fn reading_2_1_absent_by_the_size() {
    worked(&[
        ("ask A 0 part", "V 0003010141 0104 000130", "1 9"),
        ("ask A 0 all", "V 0003010141 0104 000130", "2 9"),
        ("ask A 0 part", "V 0003010141 0103 000130", "0 0 0 0 A@8 start end"),
        ("ask A 0 all", "V 0003010141 0103 000130", "0 0 0 0 A@8 start end"),
        ("check", "V 0003010141 0103 000130", "0"),
        ("check", "V 0003010141 0103 00018c", "9 9"),
        ("check", "V 0003010141 0102 0001", "9 9"),
    ]);
}

#[test]
fn reading_2_2_whatever_is_behind_the_offset_is_a_name() {
    worked(&[
        ("check", "V 0003010141 0104 00013080", "9 9"),
        ("check", "V 0003010141 0104 00013001", "8 9"),
        ("check", "V 0003010141 0105 0001308000", "7 9"),
        ("check", "V 0003010141 0105 0001300000", "9 9"),
    ]);
}

#[test]
fn reading_2_3_the_names_place_is_the_ids() {
    worked(&[
        ("ask A 0 part", "V 0005 0201410141 0103 010130", "0 0 0 0 A@10 start end"),
        ("ask A 0 part", "V 0005 0201410141 0104 01013000", "0 0 0 0 A@8 start end"),
    ]);
}

#[test]
fn reading_2_4_the_rewriter_keeps_the_absence() {
    worked(&[
        ("normalize 99", "V 0003010141 0103 000130", "0 0000000000030101410103000130"),
        ("normalize 99", "V 0003010141 0104 00013000", "0 000000000003010141010400013000"),
    ]);
}

#[test]
fn reading_2_5_only_flag_1() {
    worked(&[("check", "V 0003010141 0107 0002010030 30 01", "8 9")]);
}

#[test]
fn reading_2_6_the_empty_id_gives_an_empty_name() {
    let file = hex("00000000 0002 0100 0103 000132");
    assert_eq!(check(&file), (0, 0));
    assert_eq!(lines(&file, b" 0\n"), b"0 3600000 0 3600000 \n");
}

/// The same zone with its name put in or taken away.
fn turned(zone: &Zone) -> Option<Zone> {
    let Rest::Fixed { offset, name } = zone.rest else {
        return None;
    };
    let name = if name.is_none() { Some(zone.id) } else { None };
    Some(Zone { id: zone.id, rest: Rest::Fixed { offset, name } })
}

#[test]
fn absent_and_equal_answer_alike_and_are_two_contents() {
    let mut seen = 0;
    for seed in 9000..9600 {
        let (content, whole, _) = generated(seed, Size::Small);
        for (number, zone) in content.zones.iter().enumerate() {
            let Some(other) = turned(zone) else { continue };
            let mut changed = content.clone();
            changed.zones[number] = other;
            let (file, other_file) = (whole.bytes(), plan(&changed, &mut Forms::Preferred).bytes());
            assert_eq!(check(&other_file), (0, 0));
            let id = content.id(zone);
            for ticks in [FIRST, 0, LAST] {
                let one = ask_all(&file, id, ticks).expect("an answer");
                let two = ask_all(&other_file, id, ticks).expect("an answer");
                assert_eq!((one.wall, one.savings, one.start, one.end), (two.wall, two.savings, two.start, two.end));
                let nameless = matches!(zone.rest, Rest::Fixed { name: None, .. });
                // The name that was put in is the ID's; the one that was taken away is shown by the ID.
                assert_eq!(&other_file[two.name.clone()], id);
                assert!(!nameless || &file[one.name.clone()] == id);
                seen += 1;
            }
            // Rewriting keeps each as it is.
            let mut out = vec![0; other_file.len()];
            assert_eq!(rewrite(&other_file, &mut out), Ok(other_file.len()));
            assert!(out == other_file);
            let read = |file: &[u8]| read_file(file).expect("well formed").zones[number].1.clone();
            assert_ne!(read(&file), read(&other_file));
        }
    }
    assert!(seen > 300, "{seen}");
}

#[test]
fn a_cut_zone_is_not_yet_at_each_byte() {
    // With a name in its size and without: nothing is said before the field is whole.
    for data in ["000130", "00013001", "0001a15135", "0001a1513501"] {
        let data = hex(data);
        let file = [hex("00000000 0005 0201410142"), vec![1, data.len() as u8], data].concat();
        for length in 0..file.len() {
            let (part, all) = (&file[..length], asked(&file[..length], b"A", 0, Mark::ThisIsAll));
            assert_eq!(pair(&ask(part, b"A", 0, Mark::MoreMayCome)).0, 1, "{length} of {file:02x?}");
            assert!(matches!(all.0, 2 | 12));
        }
        assert_eq!(asked(&file, b"A", 0, Mark::MoreMayCome), (0, 0));
    }
}
