//! Replays of traces, by the C function and by the wrapper.

use crate::cases::hex;
use crate::lent;
use crate::questions::Question;
use crate::tally::{Difference, Tally};
use crate::whole::{error_pair, pair};
use nzd::ffi;
use second_reader::generate::{damaged_trace, Prng, Record, Trace};
use second_reader::{Edition, Mark};
use std::fmt;

/// Every prefix is taken of traces up to this length.
const EVERY_PREFIX: usize = 250;

struct Asked<'a>(&'a [u8]);

impl fmt::Display for Asked<'_> {
    fn fmt(&self, f: &mut fmt::Formatter<'_>) -> fmt::Result {
        write!(f, "the trace ")?;
        self.0.iter().try_for_each(|byte| write!(f, "{byte:02x}"))
    }
}

/// Compares one trace.
pub fn replay(tally: &mut Tally, file: &[u8], trace: &[u8]) -> Result<(), Difference> {
    let theirs = second_reader::replay(file, trace).map_err(pair);
    let numbers = theirs.map(|record| [record.map_or(-1, i64::from)]);
    let ours = lent::numbers(file, |record| ffi::replay(file, trace, record))?;
    tally.same_of("replay", &Asked(trace), file, ours, numbers)?;
    let wrapped = nzd::replay(file, trace).map_err(error_pair);
    tally.same_of("replay", &Asked(trace), file, wrapped, theirs.map(|record| record.map(u64::from)))
}

/// A trace in any order of its parts, over parts that overlap, with every number of the header wrong in many ways, damaged, and
/// cut.
pub fn all(tally: &mut Tally, file: &[u8], trace: &Trace, prng: &mut Prng) -> Result<(), Difference> {
    let bytes = trace.bytes(prng);
    replay(tally, file, &bytes)?;
    replay(tally, file, &overlapping(trace))?;
    for place in [0, 4, 8, 12] {
        let length = bytes.len() as u32;
        let right = number(&bytes, place);
        let near = (0..5).map(|by| right.wrapping_add(by).wrapping_sub(2));
        let far = [0, 15, 16, 17, length - 1, length, length + 1, 0x8000_0000, 0xcccc_cccd, u32::MAX];
        for wrong in near.chain(far) {
            let mut bytes = bytes.clone();
            bytes[place..place + 4].copy_from_slice(&wrong.to_be_bytes());
            replay(tally, file, &bytes)?;
        }
    }
    for _ in 0..8 {
        replay(tally, file, &damaged_trace(&bytes, prng))?;
    }
    let step = 1 + bytes.len() / EVERY_PREFIX;
    for length in (0..bytes.len()).step_by(step) {
        replay(tally, file, &bytes[..length])?;
    }
    Ok(())
}

fn number(bytes: &[u8], place: usize) -> u32 {
    bytes[place..place + 4].iter().fold(0, |number, &byte| number << 8 | u32::from(byte))
}

/// The same records over names that are all of the trace, header and records among them.
fn overlapping(trace: &Trace) -> Vec<u8> {
    let names_place = (16 + 20 * trace.records.len()) as u32;
    let length = names_place + trace.names.len() as u32;
    let mut out = [trace.records.len() as u32, 16, length, 0].map(u32::to_be_bytes).concat();
    for record in &trace.records {
        out.extend(Record { start: record.start + names_place, ..record.clone() }.bytes());
    }
    [out, trace.names.clone()].concat()
}

/// A trace of what a file says to these questions, and of one millisecond more the last time.
pub fn trace_of(file: &[u8], asked: &[Question]) -> Trace {
    let mut trace = Trace::default();
    for (number, (name, instant)) in asked.iter().enumerate() {
        let said = second_reader::ask(file, name, *instant, Mark::ThisIsAll, Edition::Two);
        let shown = said.map_or(0, |answer| answer.wall) + i32::from(number + 1 == asked.len());
        let (start, length) = (trace.names.len() as u32, name.len() as u32);
        trace.records.push(Record { instant: *instant, start, length, shown });
        trace.names.extend(name);
    }
    trace
}

/// The worked cases of the readings, and short traces of any small numbers.
pub fn worked(tally: &mut Tally, prng: &mut Prng) -> Result<(), Difference> {
    let file = hex("00000000 0007 03014101420143 0104 00013000");
    let west = hex("00000000 0007 03014101420143 0106 0001a1513500");
    let header = |numbers: [u32; 4]| numbers.map(u32::to_be_bytes).concat();
    let record = |instant, start, length, shown| Record { instant, start, length, shown }.bytes();
    let mut traces = vec![Vec::new(), header([0; 4])[..15].to_vec()];
    for numbers in
        [[0, 16, 0, 16], [0, 17, 0, 16], [0, 16, 0, 17], [0; 4], [0, 16, 1, 16], [1, 16, 0, 0], [0, 0, 16, 0]]
    {
        traces.push(header(numbers));
    }
    traces.push([header([0xcccc_cccd, 0, 0, 0]), vec![0; 64]].concat());
    for (start, length) in
        [(0, 1), (2, 0), (1, 0), (1, 1), (0, 2), (0, 0), (u32::MAX, 1), (0, u32::MAX), (u32::MAX, u32::MAX)]
    {
        for instant in [0, i64::MIN, i64::MAX] {
            for shown in [0, 1, -75_000, 75_000, i32::MIN] {
                for name in *b"AB\xff" {
                    let parts = [header([1, 16, 1, 36]), record(instant, start, length, shown), vec![name]];
                    traces.push(parts.concat());
                }
            }
        }
    }
    // A wrong record before a name that is too long, and a record whose instant's last byte is its own name.
    traces.push([header([2, 16, 1, 56]), record(0, 0, 1, 9), record(0, 0, 2, 0), b"A".to_vec()].concat());
    traces.push([header([1, 16, 8, 16]), record(0x41, 7, 1, 0)].concat());
    for trace in &traces {
        for file in [&file[..], &west, &file[..13], &file[..18], &[]] {
            replay(tally, file, trace)?;
        }
    }
    for _ in 0..5000 {
        let count = prng.below(80);
        let mut trace = prng.bytes(count);
        for byte in &mut trace {
            *byte = match prng.below(8) {
                0 => *byte % 40,
                1 => b'A',
                _ => 0,
            };
        }
        replay(tally, &file, &trace)?;
    }
    Ok(())
}
