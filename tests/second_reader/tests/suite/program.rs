//! 01, "One whole file", and the readings on the program.

use crate::common::hex;
use second_reader::{check, lines};

fn utc_file() -> Vec<u8> {
    hex("00000000 000501 03555443 0104 00013000")
}

fn answers(file: &[u8], input: &[u8], output: &str) {
    assert_eq!(String::from_utf8_lossy(&lines(file, input)), output, "{}", String::from_utf8_lossy(input));
}

#[test]
fn worked_lines() {
    let file = utc_file();
    assert_eq!(file.len(), 17);
    assert_eq!(check(&file), (0, 0));
    answers(&file, b"UTC 0\n", "0 0 0 0 UTC\n");
    // 02, Ask 1: "write `1 17` for GMT, `1 11` on 16 bytes and `1 0` on none. The marked cases [...] don't change."
    answers(&file, b"GMT 0\n", "1 17\n");
    answers(&file, b"GMT 0 part\n", "1 17\n");
    answers(&file, b"GMT 0 all\n", "12 17\n");
    answers(&file[..16], b"UTC 0 part\n", "1 11\n");
    answers(&file[..16], b"UTC 0\n", "1 11\n");
    answers(&file[..16], b"UTC 0 all\n", "2 11\n");
    let longer = [file.as_slice(), &[2]].concat();
    answers(&longer, b"GMT 0 part\nGMT 0\n", "12 17\n12 17\n");
    answers(&[], b"UTC 0 part\nUTC 0\nUTC 0 all\n", "1 0\n1 0\n2 0\n");
}

#[test]
fn marks_and_more_lines() {
    let file = utc_file();
    answers(&file, b"UTC 0 all\nUTC 0 part\nGMT 0 all\nUTC -1", "0 0 0 0 UTC\n0 0 0 0 UTC\n12 17\n0 0 0 0 UTC\n");
    answers(&file, b"", "");
    answers(&file, b"UTC -621355968000000000\nUTC -621355968000000001\n", "0 0 0 0 UTC\n14 0\n");
    answers(&file, b"UTC 2534023007999999999\nUTC 2534023008000000000\n", "0 0 0 0 UTC\n14 0\n");
}

#[test]
fn reading_26_line_length_is_without_the_line_feed() {
    let file = utc_file();
    let line = |length: usize, end: &str| [vec![b'x'; length - 2], b" 0".to_vec(), end.into()].concat();
    answers(&file, &line(2048, "\n"), "1 17\n");
    answers(&file, &line(2048, ""), "1 17\n");
    answers(&file, &line(2049, "\n"), "16 0\n");
    answers(&file, &line(2049, ""), "16 0\n");
}

#[test]
fn reading_27_what_a_line_is() {
    let file = utc_file();
    answers(&file, b"UTC 0", "0 0 0 0 UTC\n");
    answers(&file, b"\n", "16 0\n");
    answers(&file, b"UTC 0\n\nUTC 0\n", "0 0 0 0 UTC\n16 0\n0 0 0 0 UTC\n");
}

#[test]
fn reading_28_bytes_of_a_line() {
    let file = utc_file();
    for line in [
        "UTC 0\r",
        "UTC 0 ",
        "UTC",
        "UTC ",
        "UTC  0",
        "UTC 0 all ",
        "UTC 0 part all",
        "UTC 0  all",
        "UTC 0 ALL",
        "UTC +0",
        "UTC -",
        "UTC --1",
        "UTC 1-",
        "UTC 0x1",
        "UTC \u{0661}",
        "UTC\t0",
        " ",
        "UTC 0 p",
        "UTC 0\0",
    ] {
        answers(&file, format!("{line}\n").as_bytes(), "16 0\n");
    }
    answers(&file, b"UTC 0000000000000000000\nUTC -0\nUTC -007\n", "0 0 0 0 UTC\n0 0 0 0 UTC\n0 0 0 0 UTC\n");
    // "an empty ID is understood"; bytes that aren't UTF-8 are an ID like any other.
    answers(&file, b" 0 all\n\xff 0\n", "12 17\n1 17\n");
}

#[test]
fn reading_29_digits() {
    let file = utc_file();
    answers(&file, b"UTC 00000000000000000000\n", "16 0\n");
    answers(&file, b"UTC -00000000000000000001\n", "16 0\n");
    answers(&file, b"UTC 9999999999999999999\nUTC -9999999999999999999\n", "14 0\n14 0\n");
    answers(&file, b"UTC 9223372036854775807\nUTC 9223372036854775808\n", "14 0\n14 0\n");
    answers(&file, b"UTC -9223372036854775808\nUTC -9223372036854775809\n", "14 0\n14 0\n");
}

#[test]
fn reading_30_the_cap_comes_before_all_else() {
    let mut file = utc_file();
    file.resize(65_536, 0);
    answers(&file, b"UTC 0\nUTC\n", "0 0 0 0 UTC\n16 0\n");
    file.push(0);
    answers(&file, b"UTC 0\nUTC\n\nUTC 9999999999999999999 part\n", "4 0\n4 0\n4 0\n4 0\n");
    answers(&file, b"", "");
}

#[test]
fn reading_31_names_are_written_raw() {
    // Pool: "A", "b c\nd", "".
    let file = hex("00000000 000a 03 0141 056220630a64 00 0104 00013201 0104 02013000");
    assert_eq!(check(&file), (0, 0));
    answers(&file, b"A 0\n", "0 3600000 0 3600000 b c\nd\n");
    answers(&file, b" 0\n", "0 0 0 0 A\n");
    let unnamed = hex("00000000 0004 02 0141 00 0104 00013001");
    answers(&unnamed, b"A 0\n", "0 0 0 0 \n");
}

#[test]
fn refusals_of_the_file_come_with_its_place() {
    answers(&hex("00000001"), b"UTC 0\nUTC 0 part\n", "3 0\n3 0\n");
    answers(&hex("00000000"), b"UTC 0\nUTC 0 part\nUTC 0 all\n", "1 4\n1 4\n12 4\n");
    answers(&hex("000000"), b"UTC 0\nUTC 0 part\nUTC 0 all\n", "1 0\n1 0\n2 0\n");
}
