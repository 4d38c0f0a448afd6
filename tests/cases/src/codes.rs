//! The small codes, today's and the older edition's.

use crate::line::Line;
use crate::shown::{bytes, given, numbers, pair};
use nzd::ffi;

/// `read KIND BYTES` or `write KIND NUMBER ROOM`, and for a transition the previous one before the bytes or the number; a mark
/// is the first or the last of all numbers. For a read: value and length. For a write: the length or the refusal, then the
/// output, of as many bytes as the room says, all A5 before.
pub fn code(line: &Line) -> String {
    match (line.word(0), line.word(1)) {
        ("read", "count") => numbers(|out| ffi::read_count(&line.bytes(2), out)),
        ("read", "signed") => numbers(|out| ffi::read_signed_count(&line.bytes(2), out)),
        ("read", "offset") => numbers(|out| ffi::read_offset(&line.bytes(2), out)),
        ("read", "transition") => read_transition(line.number(2), &line.bytes(3)),
        ("write", "count") => written(room(line, 3), |out| ffi::write_count(line.number(2), out)),
        ("write", "signed") => written(room(line, 3), |out| ffi::write_signed_count(line.number(2), out)),
        ("write", "offset") => written(room(line, 3), |out| ffi::write_offset(line.number(2), out)),
        ("write", "transition") => written(room(line, 4), |out| write_transition(line.number(2), line.number(3), out)),
        other => panic!("{other:?}: no code"),
    }
}

fn room(line: &Line, k: usize) -> Vec<u8> {
    vec![0xa5; line.number(k)]
}

fn written(mut out: Vec<u8>, write: impl FnOnce(&mut [u8]) -> u64) -> String {
    let result = write(&mut out);
    format!("{} {}", pair(result), bytes(&out))
}

fn is_finite(transition: i64) -> bool {
    transition != i64::MIN && transition != i64::MAX
}

fn read_transition(previous: i64, code: &[u8]) -> String {
    let mut out = [0; 3];
    let result = ffi::read_transition(code, previous, is_finite(previous), &mut out);
    let [kind, ticks, length] = out;
    let value = [i64::MIN, i64::MAX, ticks][kind as usize];
    given(result, format!("{value} {length}"))
}

fn write_transition(previous: i64, value: i64, out: &mut [u8]) -> u64 {
    let kind = match value {
        i64::MIN => 0,
        i64::MAX => 1,
        _ => 2,
    };
    let ticks = if kind == 2 { value } else { 0 };
    ffi::write_transition(kind, ticks, previous, is_finite(previous), out)
}

/// `read KIND BYTES` or `write KIND VALUE OUTPUT`; the value is a number, for a text its bytes, for a dictionary two words: how
/// many pairs, and these. For a read: value and length, for a text the place of its bytes and how many they are, for a
/// dictionary how many entries it has and its length. For a write: the length or the refusal, then the output.
pub fn old_code(line: &Line) -> String {
    match (line.word(0), line.word(1)) {
        ("read", "count") => numbers(|out| ffi::old_read_count(&line.bytes(2), out)),
        ("read", "offset") => numbers(|out| ffi::old_read_offset(&line.bytes(2), out)),
        ("read", "text") => numbers(|out| ffi::old_read_string(&line.bytes(2), out)),
        ("read", "dictionary") => numbers(|out| ffi::old_read_dictionary(&line.bytes(2), out)),
        ("write", "count") => written(line.bytes(3), |out| ffi::old_write_count(line.number(2), out)),
        ("write", "offset") => written(line.bytes(3), |out| ffi::old_write_offset(line.number(2), out)),
        ("write", "text") => written(line.bytes(3), |out| ffi::old_write_string(&line.bytes(2), out)),
        ("write", "dictionary") => write_dictionary(line.number(2), &line.bytes(3), line.bytes(4)),
        other => panic!("{other:?}: no code"),
    }
}

fn write_dictionary(count: u64, pairs: &[u8], mut out: Vec<u8>) -> String {
    let mut length = [0];
    let result = ffi::old_write_dictionary(count, pairs, &mut out, &mut length);
    format!("{} {}", given(result, length[0].to_string()), bytes(&out))
}
