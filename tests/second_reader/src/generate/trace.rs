//! Traces of what a phone showed, right and wrong, and damaged ones.

use crate::file::{ask, Edition, Mark};
use crate::generate::content::FileContent;
use crate::generate::prng::Prng;
use crate::generate::questions::instants;
use crate::replay::{HEADER, RECORD};
use crate::transition::{FIRST, LAST};

/// One record of a trace.
#[derive(Clone, Debug, PartialEq, Eq)]
pub struct Record {
    /// The instant.
    pub instant: i64,
    /// Where the name starts within the names.
    pub start: u32,
    /// How long it is.
    pub length: u32,
    /// The offset shown, in milliseconds.
    pub shown: i32,
}

/// A trace before any byte of it is written.
#[derive(Clone, Debug, Default, PartialEq, Eq)]
pub struct Trace {
    /// The records.
    pub records: Vec<Record>,
    /// The names, one behind another or overlapping.
    pub names: Vec<u8>,
}

impl Trace {
    /// Records of what the file says of its zones, now and then wrong, of an unknown zone or of an instant out of range.
    pub fn random(content: &FileContent, file: &[u8], prng: &mut Prng) -> Trace {
        let mut trace = Trace::default();
        for _ in 0..prng.below(8) {
            let (name, instant) = match content.zones.is_empty() || prng.one_in(20) {
                true => (b"No/Such_Zone".to_vec(), 0),
                false => {
                    let zone = prng.pick(&content.zones);
                    let among = instants(zone, prng);
                    (content.id(zone).to_vec(), *prng.pick(&among))
                }
            };
            let instant = if prng.one_in(40) { *prng.pick(&[FIRST - 1, LAST + 1, i64::MIN]) } else { instant };
            let said = ask(file, &name, instant, Mark::ThisIsAll, Edition::Two);
            let shown = said.map_or(0, |answer| answer.wall) + i32::from(prng.one_in(10));
            trace.records.push(Record { instant, start: trace.names.len() as u32, length: name.len() as u32, shown });
            trace.names.extend(name);
        }
        trace
    }

    /// The trace's bytes: the header, then records and names in either order, with bytes between that belong to none.
    pub fn bytes(&self, prng: &mut Prng) -> Vec<u8> {
        let records: Vec<u8> = self.records.iter().flat_map(Record::bytes).collect();
        let records_first = prng.one_in(2);
        let parts = if records_first { [&records, &self.names] } else { [&self.names, &records] };
        let mut out = vec![0; HEADER];
        let mut places = Vec::new();
        for part in parts {
            let between = prng.below(3);
            out.extend(prng.bytes(between));
            places.push(out.len() as u32);
            out.extend(part);
        }
        let (record_place, name_place) = if records_first { (places[0], places[1]) } else { (places[1], places[0]) };
        let header = [self.records.len() as u32, record_place, self.names.len() as u32, name_place];
        out[..HEADER].copy_from_slice(&header.map(u32::to_be_bytes).concat());
        out
    }
}

impl Record {
    /// The record's bytes, all numbers "high first".
    pub fn bytes(&self) -> Vec<u8> {
        let mut out = self.instant.to_be_bytes().to_vec();
        out.extend([self.start, self.length].map(u32::to_be_bytes).concat());
        out.extend(self.shown.to_be_bytes());
        out
    }
}

/// A trace whose parts leave it, or whose bytes are changed.
pub fn damaged_trace(trace: &[u8], prng: &mut Prng) -> Vec<u8> {
    let mut out = trace.to_vec();
    // The numbers of the header, and of each record that the header's own count and offset name.
    let number = |bytes: &[u8], at: usize| u32::from_be_bytes([bytes[at], bytes[at + 1], bytes[at + 2], bytes[at + 3]]);
    let (count, offset) = (number(trace, 0) as usize, number(trace, 4) as usize);
    let mut places: Vec<usize> = vec![0, 4, 8, 12];
    places.extend((0..count).flat_map(|record| [8, 12].map(|at| offset + record * RECORD + at)));
    match prng.below(4) {
        0 => out.truncate(prng.below(out.len())),
        1 => {
            let place = prng.below(out.len());
            out[place] = prng.byte();
        }
        _ => {
            let place = *prng.pick(&places);
            let length = trace.len() as u32;
            let near = number(trace, place).wrapping_add(prng.range(-2, 2) as u32);
            let wrong = *prng.pick(&[near, length, length + 1, u32::MAX, 0x8000_0000, 0xcccc_cccd]);
            out[place..place + 4].copy_from_slice(&wrong.to_be_bytes());
        }
    }
    out
}
