//! Checks and questions on whole files.
//!
//! The last words of a line are the file: all of it, or a front, a unit, how many times that stands there, and an end.

use crate::line::Line;
use crate::shown::{answer, given, list, numbers, pair, text};
use nzd::ffi;

/// `TICKS ID FILE..`. The check, the version text's place and length, and the question of the zone as all there is under edition
/// 2 and under edition 1.
pub fn check(line: &Line) -> String {
    let (ticks, id, file) = (line.number(0), line.bytes(1), line.built(2));
    let version = numbers(|out| ffi::version_text(&file, out));
    let asked = |first_edition| answer(&file, |out| ffi::ask(&file, &id, ticks, false, first_edition, out));
    format!("{} | {version} | {} | {}", verdict(&file), asked(false), asked(true))
}

/// Normalizing without room is the check: 15 says that the file is well formed.
fn verdict(file: &[u8]) -> String {
    match ffi::normalize(file, &mut []) {
        15 => "0 0".to_string(),
        result => pair(result),
    }
}

/// `TICKS NAME FILE..`. The named question with more to come under edition 2, as all there is, and that under edition 1; and the
/// check.
pub fn name(line: &Line) -> String {
    let (ticks, name, file) = (line.number(0), line.bytes(1), line.built(2));
    let asked = |more, first| answer(&file, |out| ffi::ask_named(&file, &name, ticks, more, first, out));
    format!("{} | {} | {} | {}", asked(true, false), asked(false, false), asked(false, true), verdict(&file))
}

/// `TICKS NAME OLDER FILE..`. The named question over an older dictionary, under edition 2 and under edition 1.
pub fn old_name(line: &Line) -> String {
    let (ticks, name, older, file) = (line.number(0), line.bytes(1), line.bytes(2), line.built(3));
    let asked =
        |first_edition| answer(&file, |out| ffi::ask_named_old(&file, &older, &name, ticks, first_edition, out));
    format!("{} | {}", asked(false), asked(true))
}

/// `LOCAL ID FILE..`. How many instants read as the local time, the earliest and the latest.
pub fn wall(line: &Line) -> String {
    let (local, id, file) = (line.number(0), line.bytes(1), line.built(2));
    numbers(|out| ffi::map_local(&file, &id, local, out))
}

/// `TICKS FROM ROOM ID FILE..`. Where the zone isn't found, the refusal; else what the found zone gives at the instant under
/// edition 2 and under edition 1, and of the instant as a local time; how many rows the table of its answers from an instant on
/// has, or its refusal, and the whole table, of as many numbers as the room says, all 7 before; and where rows were put what
/// the question over them gives.
pub fn table(line: &Line) -> String {
    let (ticks, from, mut rows) = (line.number(0), line.number(1), vec![7; line.number(2)]);
    let (id, file) = (line.bytes(3), line.built(4));
    let (mut zone, mut count) = ([0; 5], [0]);
    let found = ffi::find_zone(&file, &id, &mut zone);
    if found != 0 {
        return pair(found);
    }
    let asked = |first_edition| answer(&file, |out| ffi::ask_zone(&file, &zone, ticks, first_edition, out));
    let local = numbers(|out| ffi::map_zone_local(&file, &zone, ticks, out));
    let result = ffi::list_answers(&file, &zone, from, false, &mut rows, &mut count);
    let listed = given(result, count[0].to_string()) + &list(&rows);
    let said = format!("{} | {} | {local} | {listed}", asked(false), asked(true));
    if result != 0 {
        return said;
    }
    let rows = &rows[..nzd::ROW_NUMBERS * count[0] as usize];
    format!("{said} | {}", answer(&file, |out| ffi::ask_listed(&file, &zone, rows, ticks, false, out)))
}

/// `FIELD NUMBER FILE..`. The location's zone ID and comment, how many countries it has, and name and code of each, every text
/// with its place; and what one more step of the view gives: `none`.
pub fn location(line: &Line) -> String {
    let (field, number, file) = (line.number(0), line.number(1), line.built(2));
    let (mut pin, mut out) = ([0.0; 2], [0; 8]);
    let result = ffi::location(&file, field, number, &mut pin, &mut out);
    if result != 0 {
        return pair(result);
    }
    let [zone, zone_length, comment, comment_length, mut view @ ..] = out;
    let placed = |place: u64, length: u64| format!(" {}@{place}", text(&file, place as usize, length as usize));
    let mut said = format!("0{}{} {}", placed(zone, zone_length), placed(comment, comment_length), view[3]);
    for _ in 0..=view[3] {
        let mut out = [0; 4];
        if ffi::next_country(&file, &mut view, &mut out) {
            let [name, name_length, code, code_length] = out;
            said += &(placed(name, name_length) + &placed(code, code_length));
        } else {
            said += " none";
        }
    }
    said
}
