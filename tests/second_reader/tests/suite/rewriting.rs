//! Rewriting: the preferred file, of the same content, never longer, unchanged when rewritten again.

use crate::common::{generated, hex, zone_file};
use second_reader::file::{read_file, Contents};
use second_reader::generate::{damaged, plan, Damage, Forms, Size};
use second_reader::zone::Zone;
use second_reader::{check, rewrite};

fn rewritten(file: &[u8]) -> Vec<u8> {
    // "leaves later output bytes as found"
    let mut out = vec![0xaa; file.len() + 7];
    let length = rewrite(file, &mut out).expect("well formed");
    assert!(length <= file.len(), "never longer");
    assert!(out[length..].iter().all(|byte| *byte == 0xaa));
    out.truncate(length);
    out
}

/// "the same fields in the same order with the same data, transitions compared by the instant or mark they name"
fn same_content(one: &Contents, other: &Contents) {
    let other_data = |contents: &Contents| -> Vec<(u8, Vec<u8>)> {
        let data = |id: u8, bytes: &[u8]| if id == 1 { Vec::new() } else { bytes.to_vec() };
        contents.fields.iter().map(|field| (field.id, data(field.id, field.data))).collect()
    };
    let zones = |contents: &Contents| -> Vec<Zone> { contents.zones.iter().map(|(_, zone)| zone.clone()).collect() };
    assert_eq!(other_data(one), other_data(other));
    assert_eq!(zones(one), zones(other));
}

#[test]
fn generated_files() {
    let mut shorter = 0;
    for seed in 5000..6000 {
        let (content, any, _) = generated(seed, Size::Any);
        let file = any.bytes();
        let preferred = plan(&content, &mut Forms::Preferred).bytes();
        let once = rewritten(&file);
        assert_eq!(once, preferred, "seed {seed}");
        assert_eq!(rewritten(&once), once, "seed {seed}");
        assert_eq!(check(&once), (0, 0));
        same_content(&read_file(&file).expect("well formed"), &read_file(&once).expect("well formed"));
        let read: Vec<Zone> = read_file(&file).expect("well formed").zones.into_iter().map(|(_, zone)| zone).collect();
        assert_eq!(read, content.zones, "seed {seed}");
        shorter += usize::from(once.len() < file.len());
        // One byte too short: 15, and nothing written.
        let mut out = vec![0xaa; once.len() - 1];
        let refusal = rewrite(&file, &mut out).expect_err("too short");
        assert_eq!((refusal.number.value(), refusal.place), (15, 0));
        assert!(out.iter().all(|byte| *byte == 0xaa));
    }
    assert!(shorter > 300, "{shorter}");
}

#[test]
fn damaged_files_are_refused_as_the_check_refuses_them() {
    let mut refused = 0;
    for seed in 6000..8000 {
        let (_, whole, mut prng) = generated(seed, Size::Small);
        let kind = *prng.pick(&Damage::ALL);
        let file = damaged(&whole, kind, &mut prng);
        let mut out = vec![0xaa; file.len()];
        match rewrite(&file, &mut out) {
            Ok(_) => assert_eq!(check(&file), (0, 0)),
            Err(refusal) => {
                refused += 1;
                assert_eq!(check(&file), (refusal.number.value(), refusal.place));
                assert!(out.iter().all(|byte| *byte == 0xaa));
            }
        }
    }
    assert!(refused > 1200, "{refused}");
}

#[test]
fn sizes_follow_the_transitions() {
    // A second start at 1970 in ticks, a third 128 hours later in minutes: 9 bytes to 4, 4 to 2.
    let long = zone_file("000203 00003030 020000000000000000003030 e0d7d12a003030 01 00");
    let short = zone_file("000203 00003030 e09bd12a003030 8001003030 01 00");
    assert_eq!(rewritten(&long), short);
    assert_eq!(rewritten(&short), short);
    // An end in ticks, 5,040 hours after the last start; the tail, A without a weekday included, is copied.
    let tail = "01 32 00 020a0132 00 1c030132 32";
    let long = zone_file(&format!("000202 00003030 e09bd12a003030 020000a504cabf8000 {tail}"));
    let short = zone_file(&format!("000202 00003030 e09bd12a003030 b027 {tail}"));
    assert_eq!(rewritten(&long), short);
}

#[test]
fn a_size_code_shortens_too() {
    // 14 intervals in ticks: 173 bytes of data and two size bytes become fewer than 128 and one.
    let mut long = "00020e 00003030".to_string();
    let mut short = long.clone();
    for number in 1..14i64 {
        long += &format!("02{:016x}003030", number * 128 * 36_000_000_000);
        short += if number == 1 { "e0d7d12a003030" } else { "8001003030" };
    }
    long += "0100";
    short += "0100";
    let (long, short) = (zone_file(&long), zone_file(&short));
    assert_eq!(long[10..12], [0x80 | (13 * 12 + 9) as u8 & 0x7f, 1]);
    assert_eq!(rewritten(&long), short);
    assert!(short[10] < 0x80);
}

#[test]
fn all_else_is_copied() {
    let file = hex("00000000 0005 0201410142 0104 01013000 0206 053230323562 0303010100 0403ffffff 0800 0801ff ff00");
    assert_eq!(rewritten(&file), file);
}
