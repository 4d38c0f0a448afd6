//! The binary's commands, as they are run.

use crate::common::bytes_of;
use second_reader::generate::case;
use std::fs;
use std::io::Write;
use std::path::PathBuf;
use std::process::{Command, Output, Stdio};

/// A folder of this test's own, made anew.
fn folder(name: &str) -> PathBuf {
    let dir = PathBuf::from(env!("CARGO_TARGET_TMPDIR")).join(name);
    if dir.exists() {
        fs::remove_dir_all(&dir).expect("an old folder removed");
    }
    fs::create_dir_all(&dir).expect("a folder");
    dir
}

fn run(words: &[&str], input: &[u8]) -> Output {
    let mut child = Command::new(env!("CARGO_BIN_EXE_second_reader"))
        .args(words)
        .stdin(Stdio::piped())
        .stdout(Stdio::piped())
        .stderr(Stdio::piped())
        .spawn()
        .expect("the binary runs");
    child.stdin.take().expect("standard input").write_all(input).expect("input written");
    child.wait_with_output().expect("the binary ends")
}

fn prints(words: &[&str], input: &str, output: &str, status: i32) {
    let done = run(words, input.as_bytes());
    assert_eq!(String::from_utf8_lossy(&done.stdout), output, "{words:?}");
    assert_eq!(done.status.code(), Some(status), "{words:?}");
    // Whatever isn't done says so in words.
    assert_eq!(done.stderr.is_empty(), status == 0, "{words:?}");
}

const EUROPE: &str = concat!(env!("CARGO_MANIFEST_DIR"), "/../data/europe.nzd");

#[test]
fn commands_on_files() {
    let dir = folder("commands_on_files");
    let path = |name: &str| dir.join(name).to_str().expect("a path in UTF-8").to_string();
    prints(&["check", EUROPE], "", "0 0\n", 0);
    prints(&["version", EUROPE], "", "0 2025b\n", 0);
    let oslo = "0 7200000 3600000 3600000 17118468000000000 17299908000000000 CEST\n";
    prints(&["ask", EUROPE, "Europe/Oslo", "17118468000000000"], "", oslo, 0);
    prints(&["ask", EUROPE, "Europe/Oslo", "17118468000000000", "part"], "", oslo, 0);
    prints(&["ask", EUROPE, "Europe/Atlantis", "2534023008000000000", "all"], "", "14 0\n", 1);
    fs::write(dir.join("cut"), &fs::read(EUROPE).expect("europe.nzd")[..21_000]).expect("a file");
    prints(&["ask", &path("cut"), "Europe/Zurich", "0"], "", "1 20805\n", 1);
    prints(&["ask", &path("cut"), "Europe/Zurich", "0", "part"], "", "1 20805\n", 1);
    prints(&["ask", &path("cut"), "Europe/Zurich", "0", "all"], "", "2 20805\n", 1);
    let all = concat!(env!("CARGO_MANIFEST_DIR"), "/../data/all.nzd");
    prints(&["named", all, "Europe/Oslo", "17118468000000000", "part"], "", oslo, 0);
    prints(&["named", all, "Asia/Calcutta", "0", "part"], "", "0 19800000 0 19800000 -7641450000000000 end IST\n", 0);
    prints(&["named", all, "Europe/Atlantis", "0", "part"], "", "12 125592\n", 1);
    // Oslo, 2024-10-27 02:30 and 2024-03-31 02:30.
    prints(&["local", EUROPE, "Europe/Oslo", "17299962000000000"], "", "0 2 17299890000000000 17299926000000000\n", 0);
    prints(&["local", EUROPE, "Europe/Oslo", "17118522000000000"], "", "17 0\n", 1);
    fs::write(dir.join("fixed"), bytes_of("V P 0104 00013201 0303 010200")).expect("a file");
    for (words, name) in [(vec!["part", "1"], "A"), (vec!["all", "2"], "B"), (vec!["part"], "B")] {
        let said = format!("0 3600000 0 3600000 start end {name}\n");
        let fixed = path("fixed");
        prints(&[vec!["ask", &fixed, "A", "0"], words.clone()].concat(), "", &said, 0);
        prints(&[vec!["named", &fixed, "C", "0"], words].concat(), "", &said, 0);
    }
    fs::write(dir.join("older"), bytes_of("f1f158f141")).expect("a file");
    for (words, name) in [(vec!["X", "0", "1"], "A"), (vec!["X", "0"], "B"), (vec!["A", "0", "2"], "B")] {
        let (fixed, older) = (path("fixed"), path("older"));
        let said = format!("0 3600000 0 3600000 start end {name}\n");
        prints(&[vec!["named-old", &fixed, &older], words].concat(), "", &said, 0);
    }
    prints(&["named-old", &path("fixed"), &path("older"), "C", "0"], "", "12 0\n", 1);
    fs::write(dir.join("pins"), bytes_of("V P 0707 01 20 818d4f 00 0200")).expect("a file");
    prints(&["location", &path("pins"), "7", "0"], "", "20 13\n", 1);
    fs::write(dir.join("pins"), bytes_of("V P 0709 01 20 ff8c4f 02 0001 0001 02 00")).expect("a file");
    prints(&["location", &path("pins"), "7", "0"], "", "9 13\n", 1);
    fs::write(dir.join("pins"), bytes_of("V P 070c 01 a8aa1a d8dc04 02 0001 0200")).expect("a file");
    // 59 degrees 55 minutes north, 10 degrees 45 minutes east.
    let pin = "0 59.916666666666664 10.75 43@12 41@8 1 41@8 42@10\n";
    prints(&["location", &path("pins"), "7", "0"], "", pin, 0);
    fs::write(dir.join("pins"), bytes_of("V P 0607 01000000010200")).expect("a file");
    prints(&["location", &path("pins"), "6", "0"], "", "0 0 0 43@12 41@8 1 41@8 42@10\n", 0);
    prints(&["location", &path("pins"), "6", "18446744073709551615"], "", "12 13\n", 1);
    prints(&["location", &path("pins"), "7", "0"], "", "12 22\n", 1);
    prints(&["location", EUROPE, "6", "52"], "", "12 22872\n", 1);
    prints(&["rewrite", EUROPE, &path("out")], "", "0 23990\n", 0);
    assert!(fs::read(dir.join("out")).ok() == fs::read(EUROPE).ok());
    prints(&["lines", EUROPE], "Europe/Oslo 0\nEurope/Oslo\n", "0 3600000 0 3600000 CET\n16 0\n", 0);
    prints(&["normalize", EUROPE, &path("out"), "23990"], "", "0 23990\n", 0);
    prints(&["normalize", EUROPE, &path("never"), "23989"], "", "15 0\n", 1);
    prints(&["normalize", EUROPE, &path("never"), "0"], "", "15 0\n", 1);
    // A missing file counts as no bytes for the program only.
    prints(&["lines", &path("missing")], "UTC 0\nUTC 0 all", "1 0\n2 0\n", 0);
    prints(&["check", &path("missing")], "", "", 2);
    fs::write(dir.join("bad"), [0, 0, 0, 1]).expect("a file");
    prints(&["check", &path("bad")], "", "3 0\n", 1);
    prints(&["rewrite", &path("bad"), &path("never")], "", "3 0\n", 1);
    prints(&["normalize", &path("bad"), &path("never"), "0"], "", "3 0\n", 1);
    assert!(!dir.join("never").exists());
}

#[test]
fn generate_writes_cases() {
    let dir = folder("generate");
    let path = dir.to_str().expect("a path in UTF-8");
    prints(&["generate", "5", "6", path], "", "6 files\n", 0);
    assert_eq!(fs::read_dir(&dir).expect("a folder").count(), 18);
    for number in 1..=6 {
        let written = |ending: &str| fs::read(dir.join(format!("{number:04}.{ending}"))).expect("a file");
        let expected = case(5, number);
        assert!(written("nzd") == expected.file);
        assert!(written("questions") == expected.questions);
        assert!(written("expected") == expected.expected);
        let file = dir.join(format!("{number:04}.nzd"));
        let done = run(&["lines", file.to_str().expect("a path in UTF-8")], &expected.questions);
        assert!(done.stdout == expected.expected);
    }
}

#[test]
fn single_codes() {
    prints(&["code", "read", "count", "EA02ff"], "", "0 2 362\n", 0);
    prints(&["code", "read", "signed", "FFFFFFFF0F"], "", "0 5 -2147483648\n", 0);
    prints(&["code", "read", "offset", "86F9"], "", "0 2 20700000\n", 0);
    prints(&["code", "read", "offset", "60"], "", "7 0\n", 1);
    prints(&["code", "read", "offset", "-"], "", "9 0\n", 1);
    prints(&["code", "read", "transition", "b027", "0"], "", "0 2 181440000000000\n", 0);
    prints(&["code", "read", "transition", "b027", "none"], "", "7 0\n", 1);
    prints(&["code", "read", "transition", "01", "none"], "", "0 1 end\n", 0);
    prints(&["code", "read", "text", "03555443"], "", "0 4 555443\n", 0);
    prints(&["code", "write", "count", "362", "2"], "", "0 2 ea02\n", 0);
    prints(&["code", "write", "count", "362", "1"], "", "15 0\n", 1);
    prints(&["code", "write", "signed", "-2", "1"], "", "0 1 03\n", 0);
    prints(&["code", "write", "offset", "-75000", "3"], "", "0 3 a15135\n", 0);
    prints(&["code", "write", "transition", "181440000000000", "0", "9"], "", "0 2 b027\n", 0);
    prints(&["code", "write", "transition", "start", "none", "9"], "", "0 1 00\n", 0);
    prints(&["code", "write", "text", "ff", "9"], "", "8 0\n", 1);
    prints(&["code", "write", "text", "-", "9"], "", "0 1 00\n", 0);
    prints(&["code", "read", "old-count", "00"], "", "0 1 15\n", 0);
    prints(&["code", "read", "old-offset", "840000"], "", "0 3 1000\n", 0);
    prints(&["code", "read", "old-string", "f341c3a9ff"], "", "0 4 41c3a9\n", 0);
    prints(&["code", "read", "old-dictionary", "f2f141f142f0f141ff"], "", "0 8 2 41 42 - 41\n", 0);
    prints(&["code", "read", "old-dictionary", "f2f141f142f141"], "", "19 0\n", 1);
    prints(&["code", "write", "old-count", "15", "1"], "", "0 1 00\n", 0);
    prints(&["code", "write", "old-offset", "-1", "5"], "", "0 5 fdffffffff\n", 0);
    prints(&["code", "write", "old-string", "-", "0"], "", "15 0\n", 1);
    prints(&["code", "write", "old-dictionary", "41", "42", "-", "41", "8"], "", "0 8 f2f141f142f0f141\n", 0);
    prints(&["code", "write", "old-dictionary", "41", "42", "41", "ff", "0"], "", "19 0\n", 1);
    prints(&["code", "write", "old-dictionary", "1"], "", "0 1 f0\n", 0);
    let list = "read count EA02\nwrite offset 86400000 4\nread transition 8001 start\n";
    prints(&["code"], list, "0 2 362\n7 0\n7 0\n", 0);
}

#[test]
fn tools() {
    let dir = folder("tools");
    let path = |name: &str| dir.join(name).to_str().expect("a path in UTF-8").to_string();
    let (one, two) = (path("one"), path("two"));
    fs::write(&one, bytes_of("V P A")).expect("a file");
    let changes = "V P 0121 00020300003230 02000000000000000a 003030 020000000000000014 0032300100";
    fs::write(&two, bytes_of(changes)).expect("a file");
    prints(&["difference", &one, &two, "A", "0", "30", "2"], "", "0 2 0 10 20 30\n", 0);
    prints(&["difference", &one, &two, "A", "0", "30", "1"], "", "15 0\n", 1);
    prints(&["difference", &one, &one, "A", "0", "30", "0"], "", "0 0\n", 0);
    prints(&["difference", &one, &two, "C", "0", "30", "0"], "", "12 19\n", 1);
    prints(&["starts", &two, "A", "3"], "", "0 3 -9223372036854775808 10 20\n", 0);
    prints(&["starts", &two, "A", "2"], "", "15 0\n", 1);
    prints(&["find", "2", "1", "2", "3"], "", "0 1 2\n", 0);
    prints(&["find", "2"], "", "12 0\n", 1);
    prints(&["find"], "0 1 2 3\n5 9 1 9 1\n5\n", "0 0 1\n0 1 2\n12 0\n", 0);
    // One record for "A" at 0 that shows an hour.
    let trace = "00000001 00000010 00000001 00000024 0000000000000000 00000000 00000001 0036ee80 41";
    fs::write(path("trace"), bytes_of(trace)).expect("a file");
    prints(&["replay", &one, &path("trace")], "", "0 0\n", 0);
    prints(&["replay", &two, &path("trace")], "", "0 none\n", 0);
    fs::write(path("trace"), bytes_of(&trace.replace("0036ee80", "00000000"))).expect("a file");
    prints(&["replay", &one, &path("trace")], "", "0 none\n", 0);
    prints(&["replay", &one, &one], "", "21 0\n", 1);
    prints(&["close", &one, &path("closed"), "15"], "", "0 15\n", 0);
    assert_eq!(fs::read(path("closed")).ok(), Some(bytes_of("V 0003010141 A")));
    prints(&["close", &one, &path("never"), "14"], "", "15 0\n", 1);
    fs::write(&two, bytes_of("V P A 0400")).expect("a file");
    prints(&["close", &two, &path("never"), "99"], "", "22 19\n", 1);
    assert!(!dir.join("never").exists());
}

#[test]
fn receiving() {
    let pieces = ["receive", "12", "000000", "00", "000100", "02010003", "0201", "-", "reset", "00000001", "00"];
    prints(&pieces, "", "0 3 0\n0 4 4\n0 7 7\n0 11 10\n15 0\n0 11 10\n0 0 0\n0 4 0\n0 5 0\n", 0);
    prints(&["receive", "0"], "", "", 0);
}

#[test]
fn rules_tails_and_dates() {
    prints(&["rule", "1C030132", "0", "0", "2024"], "", "0 17118468000000000\n", 0);
    prints(&["rule", "1C000132", "0", "0", "2024"], "", "11 0\n", 1);
    prints(&["date", "2024", "3", "31"], "", "19813\n", 0);
    prints(&["date"], "1970 1 1\n0001 1 1\n10000 1 1\n", "0\n-719162\n2932897\n", 0);
    // Oslo's tail, on the day of a change and a tick before.
    let tail = "32001C0A0132011C03013232";
    let start = "0";
    prints(
        &["tail", tail, start, "17118468000000000"],
        "",
        "0 7200000 3600000 daylight 17118468000000000 17299908000000000\n",
        0,
    );
    let list = format!("{tail} {start} 17118467999999999\n{tail} 17118467999999999 17118467999999999\n");
    let lines = "0 3600000 0 standard 16985412000000000 17118468000000000\n\
                 0 3600000 0 standard 17118467999999999 17118468000000000\n";
    prints(&["tail"], &list, lines, 0);
    prints(&["tail", tail, start, "2534023007999999999"], "", "0 3600000 0 standard 2533969476000000000 end\n", 0);
}

#[test]
fn misuse_is_said_in_words() {
    for words in [
        &[][..],
        &["nothing"],
        &["check"],
        &["check", "a", "b"],
        &["ask", EUROPE, "Europe/Oslo"],
        &["ask", EUROPE, "Europe/Oslo", "x"],
        &["ask", EUROPE, "Europe/Oslo", "0", "some"],
        &["ask", EUROPE, "Europe/Oslo", "0", "all", "3"],
        &["ask", EUROPE, "Europe/Oslo", "0", "all", "1", "1"],
        &["named", EUROPE, "Europe/Oslo", "0", "all", "0"],
        &["named", EUROPE, "Europe/Oslo", "0"],
        &["named", EUROPE, "Europe/Oslo", "0", "some"],
        &["local", EUROPE, "Europe/Oslo"],
        &["local", EUROPE, "Europe/Oslo", "x"],
        &["location", EUROPE, "5", "0"],
        &["location", EUROPE, "6", "-1"],
        &["normalize", EUROPE, "x"],
        &["normalize", EUROPE, "x", "-1"],
        &["named-old", EUROPE, EUROPE, "X"],
        &["named-old", EUROPE, EUROPE, "X", "0", "3"],
        &["code", "write", "old-dictionary", "41", "9"],
        &["difference", EUROPE, EUROPE, "A", "0", "1"],
        &["difference", EUROPE, EUROPE, "A", "0", "x", "1"],
        &["replay", EUROPE],
        &["starts", EUROPE, "A"],
        &["find", "x"],
        &["close", EUROPE, "x"],
        &["receive"],
        &["receive", "4", "0"],
        &["receive", "99999999"],
        &["generate", "1", "-1", "x"],
        &["code", "read", "count"],
        &["code", "read", "count", "0"],
        &["code", "read", "count", "0g"],
        &["code", "read", "transition", "00"],
        &["code", "write", "count", "1"],
        &["code", "write", "count", "1", "1000000000000"],
        &["date", "2023", "2", "29"],
        &["date", "99999", "1", "1"],
        &["date", "2023", "13", "1"],
        &["rule", "1C030132", "86400000", "0", "2024"],
        &["tail", "32", "0", "-1"],
        &["tail", "32", "0", "2534023008000000000"],
    ] {
        prints(words, "", "", 2);
    }
    let done = run(&["date"], b"1970 1 1\n1970 1\n");
    assert_eq!((done.status.code(), done.stdout.is_empty()), (Some(2), true));
    assert_eq!(String::from_utf8_lossy(&done.stderr), "second_reader: line 2: these words make no case of date\n");
}
