//! 02, Ask 13: the older edition's codes, and its dictionary in the place of field 3.

use crate::common::{bytes_of, generated, hex, pair, values};
use second_reader::generate::{damaged, damaged_dictionary, dictionary, names, plan, random_entries};
use second_reader::generate::{Damage, Entries, FileContent, Forms, Prng, Size};
use second_reader::old::{
    encode_count, encode_dictionary, encode_offset, encode_string, read_count, read_dictionary, read_offset,
    read_string, write_count, write_dictionary, write_offset, write_string,
};
use second_reader::transition::LAST;
use second_reader::{ask, ask_named, ask_named_old, check, Edition, Mark, Refusal};
use std::collections::BTreeSet;

fn count(text: &str) -> Result<(u32, usize), u8> {
    read_count(&hex(text)).map_err(|number| number.value())
}

fn offset(text: &str) -> Result<(i32, usize), u8> {
    read_offset(&hex(text)).map_err(|number| number.value())
}

/// How many entries and how long, or the number.
fn entries(text: &str) -> Result<(usize, usize), u8> {
    read_dictionary(&hex(text)).map(|(entries, length)| (entries.len(), length)).map_err(|number| number.value())
}

#[test]
fn worked_codes() {
    // Both directions, by document 002 and by 02.
    for (bytes, value) in [
        ("f0", 0),
        ("fe", 0x0e),
        ("00", 0x0f),
        ("7f", 0x8e),
        ("8000", 0x8f),
        ("bfff", 0x408e),
        ("c00000", 0x408f),
        ("dfffff", 0x20_408e),
        ("e0000000", 0x20_408f),
        ("efffffff", 0x1020_408e),
        ("ff1020408f", 0x1020_408f),
        ("ff7fffffff", 0x7fff_ffff),
    ] {
        assert_eq!(count(bytes), Ok((value, bytes.len() / 2)), "{bytes}");
        assert_eq!(encode_count(i64::from(value)), Ok(hex(bytes)));
    }
    for (bytes, ms) in [
        ("10", -84_600_000),
        ("11", -82_800_000),
        ("3f", 0),
        ("40", 1_800_000),
        ("6e", 84_600_000),
        ("82ae80", -86_399_000),
        ("840000", 1_000),
        ("83fffe", -1_000),
        ("85517e", 86_399_000),
        ("fdffffffff", -1),
        ("fd00000001", 1),
        ("fd05265bff", 86_399_999),
        ("fdfad9a401", -86_399_999),
    ] {
        assert_eq!(offset(bytes), Ok((ms, bytes.len() / 2)), "{bytes}");
        assert_eq!(encode_offset(i64::from(ms)), Ok(hex(bytes)));
    }
}

#[test]
fn reading_13_1_counts_of_five_bytes() {
    assert_eq!(count("ff1020408e"), Err(7));
    assert_eq!(count("ff80000000"), Err(7));
    assert_eq!(count("ff00000000"), Err(7));
    assert_eq!(count("ffffffffff"), Err(7));
    for value in [-1, 0x8000_0000, i64::MIN, i64::MAX] {
        assert_eq!(encode_count(value).map_err(|number| number.value()), Err(7));
    }
}

#[test]
fn reading_13_2_cut_codes() {
    for cut in ["", "ff80", "80", "c000", "e00000", "ff102040"] {
        assert_eq!(count(cut), Err(9), "{cut}");
    }
    for cut in ["", "8200", "82", "8551", "fd7fff", "fd", "fd05265c"] {
        assert_eq!(offset(cut), Err(9), "{cut}");
    }
    // A first byte without a form is 7 at once.
    let formless = (0x00..=0x0f).chain(0x6f..=0x81).chain(0x86..=0xfc).chain([0xfe, 0xff]);
    for first in formless {
        assert_eq!(offset(&format!("{first:02x}")), Err(7), "{first:02x}");
        assert_eq!(offset(&format!("{first:02x}00000000")), Err(7), "{first:02x}");
    }
}

#[test]
fn reading_13_3_preferred_forms_inside_24_hours() {
    for bytes in
        ["83ffff", "840707", "fd000003e8", "82ae7f", "85517f", "fd05265c01", "fd05265c00", "fdfad9a400", "fd00000000"]
    {
        assert_eq!(offset(bytes), Err(7), "{bytes}");
    }
    for ms in [86_400_000, -86_400_000, 86_400_001, i64::MAX, i64::MIN] {
        assert_eq!(encode_offset(ms).map_err(|number| number.value()), Err(7));
    }
    // Whole minutes have no form of their own.
    assert_eq!(offset("84003b"), Ok((60_000, 3)));
}

#[test]
fn reading_13_4_strings() {
    let string = |text: &str| {
        read_string(&hex(text)).map(|(part, length)| (part.start, part.end, length)).map_err(|n| n.value())
    };
    assert_eq!(string("f0"), Ok((1, 1, 1)));
    assert_eq!(string("f341c3a9ff"), Ok((1, 4, 4)));
    assert_eq!(string("8372"), Err(4));
    assert_eq!(string("ff7fffffff"), Err(4));
    assert_eq!(string("f2ff"), Err(9));
    assert_eq!(string("f1ff"), Err(8));
    assert_eq!(string("ff1020408e"), Err(7));
    assert_eq!(string(""), Err(9));
    let long = [encode_count(1024).expect("a count"), vec![b'x'; 1024]].concat();
    assert_eq!(read_string(&long).map(|(part, length)| (part.len(), length)), Ok((1024, 1026)));
    assert_eq!(encode_string(&[b'x'; 1024]), Ok(long));
    let number = |text: &[u8]| encode_string(text).map_err(|number| number.value());
    assert_eq!((number(&[0xff; 1025]), number(&[0xff])), (Err(4), Err(8)));
}

#[test]
fn readings_13_5_to_13_7_dictionaries() {
    assert_eq!(entries("f2f141f142f141"), Err(19));
    assert_eq!(entries("f2f141f142f1418372"), Err(19));
    // The key's own faults come before.
    assert_eq!(entries("f2f141f1428372"), Err(4));
    assert_eq!(entries("f2f141f142f1ff"), Err(8));
    assert_eq!(entries("f2f141f142f2"), Err(9));
    assert_eq!(entries("ff7fffffff"), Err(9));
    assert_eq!(entries("f0"), Ok((0, 1)));
    assert_eq!(entries("00"), Err(9));
    assert_eq!(entries("f0ffff"), Ok((0, 1)));
    assert_eq!(entries("f1f158f141ff"), Ok((1, 5)));
    assert_eq!(entries("f1f158"), Err(9));
    assert_eq!(entries(""), Err(9));
    // More than eight thousand entries are no fault.
    let many: Vec<String> = (0..9000).map(|number| number.to_string()).collect();
    let many: Vec<(&[u8], &[u8])> = many.iter().map(|key| (key.as_bytes(), &b"A"[..])).collect();
    let bytes = encode_dictionary(&many).expect("a dictionary");
    assert_eq!(read_dictionary(&bytes).map(|(entries, length)| (entries.len(), length)), Ok((9000, bytes.len())));
}

/// Keys and values to be written.
type Pairs<'a> = &'a [(&'a [u8], &'a [u8])];

#[test]
fn reading_13_8_writing_a_dictionary() {
    let written = |entries: Pairs, room: usize| {
        let mut out = vec![0xaa; room];
        let given = write_dictionary(entries, &mut out).map_err(|number| number.value());
        assert!(given.is_ok() || out.iter().all(|byte| *byte == 0xaa));
        (given, out)
    };
    let long = [b'x'; 1025];
    let bad: [(Pairs, u8); 6] = [
        (&[(b"A", b""), (b"A", b"\xff")], 19),
        (&[(b"A", b"\xff"), (b"A", b"")], 8),
        (&[(&long, b"\xff")], 4),
        (&[(b"\xff", &long)], 8),
        (&[(b"A", &long), (b"\xff", b"")], 4),
        (&[(b"A", b""), (b"B", b""), (b"A", &long)], 19),
    ];
    for (entries, number) in bad {
        for room in [0, 2000] {
            assert_eq!(written(entries, room).0, Err(number), "{entries:02x?}");
        }
    }
    let good: Pairs = &[(b"A", b"B"), (b"", b"A")];
    assert_eq!(written(good, 7).0, Err(15));
    assert_eq!(written(good, 10), (Ok(8), [hex("f2f141f142f0f141"), vec![0xaa; 2]].concat()));
    assert_eq!(written(&[], 1), (Ok(1), vec![0xf0]));
    assert_eq!(written(&[], 0).0, Err(15));
}

#[test]
fn counts_both_ways() {
    // Every value near a border of the forms, and others.
    let mut prng = Prng::new(13);
    let borders = [0, 0x0f, 0x8f, 0x408f, 0x20_408f, 0x1020_408f, 0x7fff_ffff];
    let mut values: Vec<i64> = borders.iter().flat_map(|border| border - 300..border + 300).collect();
    values.extend((0..100_000).map(|_| prng.range(0, 0x7fff_ffff) >> prng.below(31)));
    for value in values.into_iter().filter(|value| (0..=0x7fff_ffff).contains(value)) {
        let code = encode_count(value).expect("a count");
        assert_eq!(read_count(&code), Ok((value as u32, code.len())));
        let mut out = vec![0xaa; code.len() + 2];
        assert_eq!(write_count(value, &mut out), Ok(code.len()));
        assert_eq!(out, [&code[..], &[0xaa; 2]].concat());
        assert_eq!(write_count(value, &mut out[..code.len() - 1]).map_err(|number| number.value()), Err(15));
    }
    // Every code of one and two bytes, and any others: what is read is written back.
    let mut codes: Vec<Vec<u8>> = (0..=0xffff_u16).map(|code| code.to_be_bytes().to_vec()).collect();
    codes.extend((0..100_000).map(|_| [vec![*prng.pick(&[0xc0, 0xdf, 0xe0, 0xef, 0xff])], prng.bytes(5)].concat()));
    for code in codes {
        match read_count(&code) {
            Ok((value, length)) => assert_eq!(encode_count(i64::from(value)).as_deref(), Ok(&code[..length])),
            Err(number) => assert!(number.value() == 9 && code.len() < 5 || number.value() == 7 && code[0] == 0xff),
        }
    }
}

#[test]
fn offsets_both_ways() {
    let mut prng = Prng::new(14);
    // Every second, and milliseconds anywhere.
    let seconds = (-86_399..86_400).map(|second| second * 1_000);
    let any: Vec<i64> = (0..200_000).map(|_| prng.range(-86_399_999, 86_399_999)).collect();
    for ms in seconds.chain(any) {
        let code = encode_offset(ms).expect("an offset");
        assert_eq!(read_offset(&code), Ok((ms as i32, code.len())));
        let length = if ms % 1_800_000 == 0 {
            1
        } else if ms % 1_000 == 0 {
            3
        } else {
            5
        };
        assert_eq!(code.len(), length);
        let mut out = vec![0xaa; length - 1];
        assert_eq!(write_offset(ms, &mut out).map_err(|number| number.value()), Err(15));
    }
    // What is read is written back: every code of one byte, every one of three, and any of five.
    let three = (0x82_0000..=0x85_ffff_u32).map(|code| code.to_be_bytes()[1..].to_vec());
    let five: Vec<Vec<u8>> = (0..200_000)
        .map(|_| {
            let ms = prng.range(-100_000_000, 100_000_000) as i32;
            [vec![0xfd], ms.to_be_bytes().to_vec()].concat()
        })
        .collect();
    for code in (0..=0xff).map(|byte| vec![byte]).chain(three).chain(five) {
        match read_offset(&code) {
            Ok((ms, length)) => {
                assert!(ms.abs() < 86_400_000);
                assert_eq!(encode_offset(i64::from(ms)).as_deref(), Ok(&code[..length]));
            }
            Err(number) => assert!(number.value() == 7 || code.len() == 1, "{code:02x?}"),
        }
    }
}

#[test]
fn strings_and_dictionaries_both_ways() {
    let mut numbers = BTreeSet::new();
    for seed in 100_000..100_600 {
        let (content, _, mut prng) = generated(seed, Size::Any);
        let wanted = random_entries(&content, &mut prng);
        let bytes = dictionary(&wanted);
        let count = prng.below(4);
        let longer = [bytes.clone(), prng.bytes(count)].concat();
        let (read, length) = read_dictionary(&longer).expect("a dictionary");
        assert_eq!(length, bytes.len());
        let texts: Entries =
            read.into_iter().map(|(key, value)| (longer[key].to_vec(), longer[value].to_vec())).collect();
        assert_eq!(texts, wanted);
        for (key, _) in wanted.iter().take(3) {
            let mut out = vec![0; key.len() + 3];
            let length = write_string(key, &mut out).expect("room");
            assert_eq!(read_string(&out).map(|(part, end)| (out[part].to_vec(), end)), Ok((key.clone(), length)));
        }
        // Every cut is 9, any damage a number of the ask.
        let cut = prng.below(bytes.len());
        assert_eq!(read_dictionary(&bytes[..cut]).map_err(|number| number.value()), Err(9));
        let bad = damaged_dictionary(&wanted, &mut prng);
        match read_dictionary(&bad) {
            Ok((read, length)) => {
                let pairs: Vec<(&[u8], &[u8])> =
                    read.iter().map(|(key, value)| (&bad[key.clone()], &bad[value.clone()])).collect();
                assert_eq!(encode_dictionary(&pairs).as_deref(), Ok(&bad[..length]));
            }
            Err(number) => {
                numbers.insert(number.value());
            }
        }
    }
    assert_eq!(numbers, BTreeSet::from([4, 7, 8, 9, 19]));
}

fn old(file: &str, older: &str, name: &str, ticks: i64) -> String {
    let file = bytes_of(file);
    match ask_named_old(&file, &hex(older), name.as_bytes(), ticks, Edition::Two) {
        Ok(answer) => format!("{}@{}", String::from_utf8_lossy(&file[answer.name.clone()]), answer.name.start),
        Err(refusal) => refusal.to_string(),
    }
}

#[test]
fn readings_13_9_to_13_14_the_lookup() {
    for (file, older, name, said) in [
        // Entries that name themselves, and unknown targets.
        ("V P A", "f1f158f158", "X", "18 0"),
        ("V P A", "f1f158f159", "X", "12 0"),
        ("V P A", "f1f141f158", "A", "A@8"),
        // A name that is neither zone ID nor key.
        ("V P A", "f1f158f141", "Q", "12 0"),
        ("V P A", "f1f158f141", "X", "A@8"),
        // Faults of the older one.
        ("V P A", "f2f158f141f1ff", "X", "8 0"),
        ("V P A", "f1f158f141ff", "X", "A@8"),
        ("V P A", "f2f158f141f158", "X", "19 0"),
        // A zone ID is answered without reading it.
        ("V P A", "", "A", "A@8"),
        ("V P A", "", "X", "9 0"),
        ("V P A", "ff1020408e", "A", "A@8"),
        // The file's check comes first, its own field 3 is checked but not used.
        ("V P A 00", "f1f158f141", "A", "5 19"),
        ("V P A 0303 010100", "f0", "B", "12 0"),
        ("V P A 0303 010103", "f1f158f141", "A", "8 19"),
        ("V P A 0600", "f1f158f141", "A", "9 19"),
        ("", "f1f158f141", "X", "2 0"),
        ("V", "f1f158f141", "X", "6 4"),
        ("V P A 02", "f1f158f141", "X", "2 19"),
    ] {
        assert_eq!(old(file, older, name, 0), said, "{file} {older} {name}");
    }
    assert_eq!(old("V P A 00", "f1f158f141", "A", LAST + 1), "14 0");
    assert_eq!(old("", "", "A", LAST + 1), "14 0");
    // The edition: a fixed zone's name or its ID.
    let file = bytes_of("V P 0104 00013001");
    let name = |edition: Edition| ask_named_old(&file, &hex("f1f158f141"), b"X", 0, edition).map(|answer| answer.name);
    assert_eq!((name(Edition::One), name(Edition::Two)), (Ok(8..9), Ok(10..11)));
}

#[test]
fn reading_13_16_eight_steps() {
    let chain = |length: usize| -> Vec<u8> {
        let names: Vec<Vec<u8>> = (0..=length)
            .map(|number| if number == length { b"A".to_vec() } else { vec![b'a' + number as u8] })
            .collect();
        let pairs: Vec<(&[u8], &[u8])> = names.windows(2).map(|pair| (&pair[0][..], &pair[1][..])).collect();
        encode_dictionary(&pairs).expect("a dictionary")
    };
    let file = bytes_of("V P A");
    assert_eq!(pair(&ask_named_old(&file, &chain(8), b"a", 0, Edition::Two)), (0, 0));
    assert_eq!(pair(&ask_named_old(&file, &chain(9), b"a", 0, Edition::Two)), (18, 0));
    assert_eq!(pair(&ask_named_old(&file, &chain(9), b"b", 0, Edition::Two)), (0, 0));
}

/// The rule is the same over both editions' dictionaries: the pairs of field 3, lent as an older dictionary beside the file
/// without them, lead where they led.
#[test]
fn either_dictionary_leads_to_the_same() {
    let mut numbers = BTreeSet::new();
    for seed in 101_000..101_800 {
        let (content, with, mut prng) = generated(seed, Size::Any);
        let Some(pairs) = &content.aliases else { continue };
        let string = |number: usize| content.pool[number].clone();
        let older = dictionary(&pairs.iter().map(|&(key, target)| (string(key), string(target))).collect());
        // Without field 3, or with another one that isn't used.
        let aliases = if prng.one_in(2) || content.pool.is_empty() { None } else { Some(vec![(0, 0)]) };
        let without = plan(&FileContent { aliases, ..content.clone() }, &mut Forms::Preferred).bytes();
        let with = with.bytes();
        let place = second_reader::file::read_file(&with).expect("well formed");
        let place = place.fields.iter().find(|field| field.id == 3).expect("field 3").place as u64;
        for name in names(&content, &mut prng) {
            for edition in [Edition::One, Edition::Two] {
                let new = ask_named(&with, &name, 7, Mark::ThisIsAll, edition).map(|answer| values(&with, answer));
                let old = ask_named_old(&without, &older, &name, 7, edition).map(|answer| values(&without, answer));
                let new = new.map_err(|refusal: Refusal| {
                    assert_eq!(refusal.place, place);
                    (refusal.number.value(), 0)
                });
                let old = old.map_err(|refusal| (refusal.number.value(), refusal.place));
                assert_eq!(old, new, "seed {seed}, {name:?}");
                numbers.insert(old.map_or_else(|(number, _)| number, |_| 0));
            }
        }
    }
    assert_eq!(numbers, BTreeSet::from([0, 12, 18]));
}

#[test]
fn the_order_on_any_bytes() {
    let mut numbers = BTreeSet::new();
    for seed in 102_000..104_000 {
        let (content, whole, mut prng) = generated(seed, Size::Small);
        let kind = *prng.pick(&Damage::ALL);
        let file = if prng.one_in(2) { whole.bytes() } else { damaged(&whole, kind, &mut prng) };
        let entries = random_entries(&content, &mut prng);
        let older = if prng.one_in(2) { dictionary(&entries) } else { damaged_dictionary(&entries, &mut prng) };
        for name in names(&content, &mut prng).into_iter().chain([b"Old/Name".to_vec()]) {
            let said = ask_named_old(&file, &older, &name, 0, Edition::Two);
            numbers.insert(pair(&said).0);
            let zone = ask(&file, &name, 0, Mark::ThisIsAll, Edition::Two);
            match (check(&file), zone, read_dictionary(&older)) {
                ((0, 0), Ok(answer), _) => assert_eq!(said, Ok(answer)),
                ((0, 0), Err(_), Err(number)) => assert_eq!(pair(&said), (number.value(), 0)),
                ((0, 0), Err(_), Ok(_)) => assert!(said.is_ok() || matches!(pair(&said), (12 | 18, 0))),
                (checked, _, _) => assert_eq!(pair(&said), checked),
            }
        }
    }
    assert_eq!(numbers, BTreeSet::from([0, 2, 3, 4, 5, 6, 7, 8, 9, 10, 11, 12, 13, 18, 19, 20]));
}
