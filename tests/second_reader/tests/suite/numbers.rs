//! Each number from 1 to 15 with its place, by the check, by questions with both marks and by the version text.

use crate::common::{all, ask, ask_all, ask_plain, asked, hex, pair, part, zone_file, A};
use second_reader::{check, rewrite, version_text, Mark};

/// One good zone "B" behind a pool of "A" and "B": the next field is at place 17.
const B: &str = "00000000 0005 0201410142 0104 01013000";

fn gives(file: &[u8], checked: (u8, u64), as_part: (u8, u64), as_all: (u8, u64)) {
    let shown = &file[..file.len().min(64)];
    assert_eq!(check(file), checked, "check {shown:02x?}");
    assert_eq!(part(file), as_part, "part {shown:02x?}");
    assert_eq!(all(file), as_all, "all {shown:02x?}");
    assert_eq!(ask_plain(file, b"A", 0), ask(file, b"A", 0, Mark::MoreMayCome));
    if checked != (0, 0) {
        // The version text and the rewriter check all first, and keep the output.
        let refusal = version_text(file).expect_err("not well formed");
        assert_eq!((refusal.number.value(), refusal.place), checked);
        let mut out = vec![0xaa; file.len()];
        let refusal = rewrite(file, &mut out).expect_err("not well formed");
        assert_eq!((refusal.number.value(), refusal.place), checked);
        assert!(out.iter().all(|byte| *byte == 0xaa));
    }
}

/// The same refusal by the check and by questions with both marks.
fn everywhere(file: &str, number: u8, place: u64) {
    let refusal = (number, place);
    gives(&hex(file), refusal, refusal, refusal);
}

/// The same, of a zone with this data at place 9.
fn zone(data: &str, number: u8) {
    let refusal = (number, 9);
    gives(&zone_file(data), refusal, refusal, refusal);
}

#[test]
fn numbers_1_and_2_cut() {
    gives(&[], (2, 0), (1, 0), (2, 0));
    gives(&hex("000000"), (2, 0), (1, 0), (2, 0));
    gives(&hex("01"), (2, 0), (1, 0), (2, 0));
    gives(&hex("00000000 00"), (2, 4), (1, 4), (2, 4));
    gives(&hex("00000000 0003 0101"), (2, 4), (1, 4), (2, 4));
    gives(&hex("00000000 0080"), (2, 4), (1, 4), (2, 4));
    for cut in ["01", "0180", "0104", "0104 00", "0104 000130"] {
        gives(&hex(&format!("{A} {cut}")), (2, 9), (1, 9), (2, 9));
        gives(&hex(&format!("{B} {cut}")), (2, 17), (1, 17), (2, 17));
    }
    // A cut field isn't looked into, even if its first bytes are bad.
    gives(&hex(&format!("{A} 0104 e0ffff")), (2, 9), (1, 9), (2, 9));
    // Behind the zones a question sees the ID only.
    gives(&hex(&format!("{B} 02")), (2, 17), (12, 17), (12, 17));
}

#[test]
fn number_1_at_an_end_with_the_zone_unseen() {
    gives(&hex("00000000"), (6, 4), (1, 4), (12, 4));
    gives(&hex(A), (0, 0), (1, 9), (12, 9));
    gives(&hex(B), (0, 0), (1, 17), (12, 17));
}

#[test]
fn number_3_version() {
    for version in ["00000001", "01000000", "00010000", "ffffffff", "0000000100", "00000100 0003010141"] {
        everywhere(version, 3, 0);
    }
}

#[test]
fn number_4_sizes_passed() {
    // A field that passes 4,194,304: this one, at place 4, has 4 size bytes, so 4,194,295 is the last good size.
    everywhere("00000000 00 F8FFFF01", 4, 4);
    gives(&hex("00000000 00 F7FFFF01"), (2, 4), (1, 4), (2, 4));
    everywhere(&format!("{A} 01 FFFFFFFF07"), 4, 9);
    gives(&hex(&format!("{B} 03 FFFFFFFF07")), (4, 17), (12, 17), (12, 17));
    // 8,193 pool strings, whether or not they are there.
    everywhere("00000000 0002 8140", 4, 4);
    gives(&hex("00000000 0002 8040"), (9, 4), (9, 4), (9, 4));
    // A string of 1,025 bytes.
    everywhere("00000000 0003 018108", 4, 4);
    let long = |length: u8| [hex("00000000 00 8408 01"), vec![length, 8], vec![b'x'; 1025]].concat();
    gives(&long(0x81), (4, 4), (4, 4), (4, 4));
    // 4,097 intervals.
    zone("00028120", 4);
    zone("00028020", 9);
    // Field 2's text: only the check reads it.
    gives(&hex(&format!("{B} 0202 8108")), (4, 17), (12, 17), (12, 17));
}

#[test]
fn largest_sizes_are_good() {
    let strings = [hex("00000000 00 8240 8040"), vec![0; 8192]].concat();
    gives(&strings, (0, 0), (1, strings.len() as u64), (12, strings.len() as u64));
    let long = [hex("00000000 00 8308 01 8008"), vec![b'x'; 1024]].concat();
    assert_eq!(check(&long), (0, 0));
    // 4,096 intervals of 128 hours each, then end of time and no tail.
    let mut data = hex("00028020 00003030 02F760800A084A8000003030");
    for _ in 2..4096 {
        data.extend(hex("8001 00 30 30"));
    }
    data.extend(hex("0100"));
    let size = data.len();
    let mut file = hex(A);
    file.extend([1, (size & 0x7f) as u8 | 0x80, (size >> 7 & 0x7f) as u8 | 0x80, (size >> 14) as u8]);
    file.extend(&data);
    assert_eq!(check(&file), (0, 0));
    assert_eq!(pair(&ask_all(&file, b"A", 0)), (0, 0));
}

#[test]
fn number_5_order() {
    everywhere(&format!("{A} 00"), 5, 9);
    everywhere(&format!("{B} 00 ff"), 5, 17);
    gives(&hex(&format!("{A} 0200")), (9, 9), (12, 9), (12, 9));
    gives(&hex(&format!("{A} 030100 0200")), (5, 12), (12, 9), (12, 9));
    gives(&hex(&format!("{A} 030100 01")), (5, 12), (12, 9), (12, 9));
    for id in 2..=7 {
        // Field 2's data is one empty text, field 3's no pairs, 6's and 7's no locations; the others' isn't read.
        let twice = format!("{A} {id:02x}0100 {id:02x}0100");
        gives(&hex(&twice), (5, 12), (12, 9), (12, 9));
    }
    for id in 8..=255 {
        let twice = format!("{A} {id:02x}0100 {id:02x}0100");
        gives(&hex(&twice), (0, 0), (12, 9), (12, 9));
    }
}

#[test]
fn number_6_first_field() {
    for id in 1..=255 {
        everywhere(&format!("00000000 {id:02x}"), 6, 4);
    }
    assert_eq!(check(&hex("00000000")), (6, 4));
    let refusal = version_text(&hex("00000000")).expect_err("no field");
    assert_eq!((refusal.number.value(), refusal.place), (6, 4));
}

#[test]
fn number_7_codes() {
    // The size, the pool's count, a string's length, a pool number.
    everywhere("00000000 00 8080808080", 7, 4);
    everywhere("00000000 00 8080808008", 7, 4);
    everywhere("00000000 0002 8000", 7, 4);
    everywhere("00000000 0003 018000", 7, 4);
    zone("8000", 7);
    everywhere(&format!("{A} 01808080808000"), 7, 9);
    // A fixed zone's offset and name.
    for offset in ["e0", "00", "60", "8000", "a15180", "c5265c00"] {
        zone(&format!("0001{offset}"), 7);
    }
    zone("0001308000", 7);
    // A start, an end, a rule's month and day and time, a tail's savings.
    zone("00020103", 7);
    zone("0002010000303003", 7);
    let tail = "0002010000303080c2d72f0130";
    zone(&format!("{tail} 001c8300"), 7);
    zone(&format!("{tail} 001c038100"), 7);
    zone(&format!("{tail} 001c0301e0"), 7);
    zone(&format!("{tail} 001c030132 001c0a0132 e0"), 7);
    // Field 2's text and a later field's size: the check only.
    gives(&hex(&format!("{B} 0202 8000")), (7, 17), (12, 17), (12, 17));
    gives(&hex(&format!("{B} c8 808080808000")), (7, 17), (12, 17), (12, 17));
}

#[test]
fn number_8_texts() {
    everywhere("00000000 0003 0101ff", 8, 4);
    everywhere("00000000 0005 0103eda080", 8, 4);
    zone("01", 8);
    zone("00013001", 8);
    zone("0002010001", 8);
    zone("0002010000303080c2d72f013001", 8);
    everywhere("00000000 000100 0104 00013000", 8, 7);
    gives(&hex(&format!("{B} 0202 01ff")), (8, 17), (12, 17), (12, 17));
}

#[test]
fn number_9_data() {
    // Flags.
    for flag in [0, 3, 0xff] {
        zone(&format!("00{flag:02x}"), 9);
    }
    zone("000201000030300102", 9);
    // Data ending early, at every byte of a whole zone with a tail.
    let whole = hex("0002010000303080c2d72f013200 1c030132001c0a013232");
    for length in 0..whole.len() {
        let file = [hex(A), vec![1, length as u8], whole[..length].to_vec()].concat();
        gives(&file, (9, 9), (9, 9), (9, 9));
    }
    // Data left over, in every field that is read.
    everywhere("00000000 0004 01014100", 9, 4);
    zone("0001300000", 9);
    zone("00020100003030010000", 9);
    gives(&hex(&format!("{B} 0202 0000")), (9, 17), (12, 17), (12, 17));
    gives(&hex(&format!("{B} 0200")), (9, 17), (12, 17), (12, 17));
    everywhere("00000000 0000", 9, 4);
    everywhere("00000000 008000", 9, 4);
    everywhere("00000000 0001 01", 9, 4);
    everywhere("00000000 0002 0101", 9, 4);
}

#[test]
fn number_10_intervals() {
    zone("000200", 10);
    // The first start: end of time, or finite.
    zone("00020101", 10);
    zone("000201e09bd12a", 10);
    // A later one: a mark, the same again, one tick before.
    let second = "000203 00003030 e09bd12a003030";
    zone(&format!("{second} 00"), 10);
    zone(&format!("{second} 01"), 10);
    zone(&format!("{second} e09bd12a"), 10);
    zone(&format!("{second} 02ffffffffffffffff"), 10);
    zone(&format!("{second} 020000000000000001"), 9);
    // Ends without a tail.
    let end = "000202 00003030 e09bd12a003030";
    zone(&format!("{end} 0000"), 10);
    zone(&format!("{end} e19bd12a00"), 10);
    // Ends with a tail: marks, the last start, one tick before it.
    zone(&format!("{end} 0001"), 10);
    zone(&format!("{end} 0101"), 10);
    zone(&format!("{end} e09bd12a01"), 10);
    zone(&format!("{end} 02ffffffffffffffff01"), 10);
    zone(&format!("{end} 02000000000000000101"), 9);
    gives(&zone_file(&format!("{end} 0100")), (0, 0), (0, 0), (0, 0));
}

#[test]
fn number_11_recurrences() {
    let tail = "0002010000303080c2d72f01 3200";
    for rest in [
        "80",
        "60",
        "1c00",
        "1c0d",
        "1c0300",
        "1c0340",
        "1c023c",
        "1c0239",
        "1c03012f",
        "1c030132 0080",
        "1c030132 001c00",
    ] {
        zone(&format!("{tail} {rest}"), 11);
    }
    gives(&zone_file(&format!("{tail} 1c0a0132 001c030132 32")), (0, 0), (0, 0), (0, 0));
    // The sum comes before the leftovers.
    let sum = "0002010000303080c2d72f01 5f00 1c0a0132 001c030132";
    zone(&format!("{sum} 31"), 11);
    zone(&format!("{sum} 3100"), 11);
}

#[test]
fn number_12_not_found() {
    let file = hex(&format!("{B} 0201 00"));
    gives(&file, (0, 0), (12, 17), (12, 17));
    // The version text of a well-formed file without field 2: the bytes' end.
    let refusal = version_text(&hex(B)).expect_err("no field 2");
    assert_eq!((refusal.number.value(), refusal.place), (12, 17));
    let later = hex(&format!("{B} 0301 00"));
    let refusal = version_text(&later).expect_err("no field 2");
    assert_eq!((refusal.number.value(), refusal.place), (12, 20));
    assert_eq!(version_text(&file), Ok(20..20));
    let text = hex(&format!("{B} 0206 053230323562 0800"));
    assert_eq!(version_text(&text).map(|part| &text[part]), Ok(&b"2025b"[..]));
}

#[test]
fn number_13_second_zone() {
    // "A" twice in the pool: the same bytes by another number.
    let pool = "00000000 0007 03014101420141";
    let file = hex(&format!("{pool} 0104 00013000 0104 02013200"));
    gives(&file, (13, 19), (0, 0), (0, 0));
    assert_eq!(asked(&file, b"B", 0, Mark::ThisIsAll), (12, 25));
    // Leftovers come before 13.
    let left = hex(&format!("{pool} 0104 00013000 0105 0201320000"));
    gives(&left, (9, 19), (0, 0), (0, 0));
    assert_eq!(asked(&left, b"B", 0, Mark::ThisIsAll), (9, 19));
}

#[test]
fn number_14_instant_range() {
    for file in [vec![], hex("01"), hex("00000001"), hex(A), hex(B)] {
        for mark in [Mark::MoreMayCome, Mark::ThisIsAll] {
            for ticks in [-621_355_968_000_000_001, 2_534_023_008_000_000_000, i64::MIN, i64::MAX] {
                assert_eq!(asked(&file, b"B", ticks, mark), (14, 0));
            }
        }
    }
    for ticks in [-621_355_968_000_000_000, 2_534_023_007_999_999_999] {
        assert_eq!(asked(&hex(B), b"B", ticks, Mark::MoreMayCome), (0, 0));
    }
}

#[test]
fn number_15_output() {
    let file = hex(B);
    for room in 0..file.len() {
        let mut out = vec![0xaa; room];
        let refusal = rewrite(&file, &mut out).expect_err("too short");
        assert_eq!((refusal.number.value(), refusal.place), (15, 0));
        assert!(out.iter().all(|byte| *byte == 0xaa));
    }
    let mut out = vec![0xaa; file.len() + 3];
    assert_eq!(rewrite(&file, &mut out), Ok(file.len()));
    assert_eq!(out, [file, vec![0xaa; 3]].concat());
}
