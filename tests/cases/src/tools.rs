//! Rewriting, and the tools on whole files.
//!
//! A line that ends in a file spells it as [`questions`](crate::questions) has it.

use crate::line::{number, Line};
use crate::shown::{given, list, numbers, output, pair};
use nzd::ffi;

/// `ROOM FILE..`. The length of the file's preferred form, or the refusal; then the output, of as many bytes as the room says,
/// all AA before.
pub fn rewrite(line: &Line) -> String {
    rewritten(line, ffi::normalize)
}

/// The same of the file with its pool closed up.
pub fn closing(line: &Line) -> String {
    rewritten(line, ffi::close_pool)
}

fn rewritten(line: &Line, function: fn(&[u8], &mut [u8]) -> u64) -> String {
    let mut out = vec![0xaa; line.size(0)];
    let result = function(&line.built(1), &mut out);
    format!("{} {}", pair(result), output(&out))
}

/// `FIRST LAST ROOM ID ONE TWO..`. How many stretches differ in the zone between two files, or the refusal; then the whole list,
/// of as many numbers as the room says, all 7 before.
pub fn difference(line: &Line) -> String {
    let (first, last, mut out, mut count) = (line.number(0), line.number(1), vec![7; line.number(2)], [0]);
    let (id, one, two) = (line.bytes(3), line.bytes(4), line.built(5));
    let result = ffi::difference(&one, &two, &id, first, last, &mut out, &mut count);
    given(result, count[0].to_string()) + &list(&out)
}

/// `FILE TRACE..`. The number of the first record that the file contradicts, or `none`.
pub fn replay(line: &Line) -> String {
    let mut record = [0];
    let result = ffi::replay(&line.bytes(0), &line.built(1), &mut record);
    given(result, if record[0] == -1 { "none".to_string() } else { record[0].to_string() })
}

/// `zone INSTANT ROOM ID FILE..` or `halve INSTANT START..`. For a zone how many starts were put, or the refusal; then the table,
/// of as many entries as the room says, all 7 before; and where it was filled what halving the entries put gives. Halving
/// gives the number of the entry left, and how many were looked at.
pub fn starts(line: &Line) -> String {
    let instant = line.number(1);
    if line.word(0) == "halve" {
        let table: Vec<i64> = line.words_from(2).map(number).collect();
        return halved(&table, instant);
    }
    let (mut table, mut count) = (vec![7; line.number(2)], [0]);
    let (id, file) = (line.bytes(3), line.built(4));
    let result = ffi::interval_starts(&file, &id, &mut table, &mut count);
    let said = given(result, count[0].to_string()) + &entries(&table);
    if result != 0 {
        return said;
    }
    format!("{said}, {}", halved(&table[..count[0] as usize], instant))
}

fn halved(table: &[i64], instant: i64) -> String {
    numbers(|out| ffi::find_start(table, instant, out))
}

/// All entries, or the first and the last eight of more than 16.
fn entries(table: &[i64]) -> String {
    if table.len() <= 16 {
        return list(table);
    }
    format!("{} ..{}", list(&table[..8]), list(&table[table.len() - 8..]))
}
