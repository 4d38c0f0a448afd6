//! 02, Ask 14: the replay of a phone's trace.

use crate::file::{ask, Edition, Mark};
use crate::number::{Number, Refusal};

/// "a header (record count, record offset, name byte count, name offset, each four bytes [...])"
pub const HEADER: usize = 16;
/// "records of instant (8), name start within the names (4), name length (4) and offset shown in milliseconds (4, signed)"
pub const RECORD: usize = 20;

/// A part of some bytes: its bytes, or 21 if "start or end past the length, even when empty".
fn part(bytes: &[u8], start: u32, length: u64) -> Result<&[u8], Refusal> {
    let end = u64::from(start) + length;
    if u64::from(start) > bytes.len() as u64 || end > bytes.len() as u64 {
        return Err(Number::BadTrace.at(0));
    }
    Ok(&bytes[start as usize..end as usize])
}

/// Four bytes of a header or record, high first.
fn four(bytes: &[u8], place: usize) -> u32 {
    bytes[place..place + 4].iter().fold(0, |number, &byte| number << 8 | u32::from(byte))
}

/// "Report the first record, numbered from 0, whose shown offset isn't the file's, or whose question the file refuses, or
/// none, with 21 first if header, records or names leave the trace or any record's name leaves the names".
pub fn replay(file: &[u8], trace: &[u8]) -> Result<Option<u32>, Refusal> {
    let header = part(trace, 0, HEADER as u64)?;
    let (count, record_offset) = (four(header, 0), four(header, 4));
    let (name_count, name_offset) = (four(header, 8), four(header, 12));
    let records = part(trace, record_offset, u64::from(count) * RECORD as u64)?;
    let names = part(trace, name_offset, u64::from(name_count))?;
    // All records are looked at before any is asked (reading 14.11).
    let mut questions = Vec::new();
    for record in records.chunks(RECORD) {
        let instant = (u64::from(four(record, 0)) << 32 | u64::from(four(record, 4))) as i64;
        let name = part(names, four(record, 8), u64::from(four(record, 12)))?;
        questions.push((instant, name, four(record, 16) as i32));
    }
    let right = |&(instant, name, shown): &(i64, &[u8], i32)| {
        ask(file, name, instant, Mark::ThisIsAll, Edition::Two).is_ok_and(|answer| answer.wall == shown)
    };
    Ok((0..count).zip(&questions).find(|(_, question)| !right(question)).map(|(number, _)| number))
}
