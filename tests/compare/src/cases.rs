//! Cases worked out by hand: examples of the papers and of the readings, and the largest sizes.

use crate::local::{map, times};
use crate::questions::{ask, prefixes};
use crate::tally::{Difference, Tally};
use crate::whole::whole;
use second_reader::codes::{encode_count, encode_offset};
use second_reader::file::read_file;
use second_reader::generate::{instants, Prng};
use second_reader::transition::{FIRST, LAST, TICKS_PER_MS};

/// The place just past a field is at most this.
const LAST_END: usize = 4_194_304;

/// Files in hex.
const FILES: [&str; 42] = [
    // The worked file of the scope paper.
    "00000000 0005 0103555443 0104 00013000",
    // Readings 1 and 2.
    "00000000 0007 03014101420141 0104 00013000 0104 02013200 00",
    "00000000 0000",
    "00000000 000100",
    // 7: a size is a count.
    "00000000 00 8080808080",
    "00000000 00 80808080",
    // 9 and 10: the version.
    "00000001",
    "01",
    "00000000",
    // 12 and 13: IDs that repeat, and one above 1.
    "00000000 0003010141 0800 0800 0900 ff00 ff00",
    "00000000 0003010141 0600 0600",
    "00000000 0003010141 0700 0700",
    "00000000 0003010141 028000",
    "00000000 0003010141 0300 0200",
    "00000000 0003010141 0300 01",
    // 15: counts and lengths at once.
    "00000000 0002 8140",
    "00000000 0003 018000",
    "00000000 0002 0180",
    "00000000 0004 018108ff",
    "00000000 0003 0102ff",
    "00000000 0003 0101ff",
    // 16: the empty ID.
    "00000000 0002 0100 0104 00013000",
    // 17: doubles before the asked zone.
    "00000000 0005 0201410142 0104 01013000 0104 01013200 0104 00013400 0104 00013600 0100",
    // A second zone with the same ID and a fault of its own, which comes first.
    "00000000 0003010141 0104 00013000 0104 00033000",
    "00000000 0003010141 0104 00013000 0105 0001300000",
    // 18 and 25: names.
    "00000000 0007 03 0141 0153 0144 0118 00020100003030 e09bd12a 01 32 01 1c0a0132 02 1c030132 32",
    "00000000 0007 03 0141 0141 0141 0104 00013002",
    // The readings of Ask 5: an ID above 3, field 2 on the way, a name that field 3 lacks, its faults, keys by their bytes.
    "00000000 0003010141 0103 000130 04",
    "00000000 0005 0201410142 0103 000130 0202 01ff 0303 010100",
    "00000000 0005 0201410142 0103 000130 0301 00 04",
    "00000000 0005 0201410142 0103 000130 0304 010100ff",
    "00000000 0005 0201410142 0103 000130 0303 010100",
    "00000000 0005 0201410142 0103 000130 0303 010101",
    "00000000 0005 0201410142 0103 000130 0306 020100010000",
    "00000000 0007 03 0141 0142 0142 0103 000130 0305 0201000200",
    "00000000 0007 03 0141 0142 0141 0103 000130 0303 010102",
    "00000000 0007 03 0141 0142 0143 0103 000130 0305 0201000002",
    "00000000 0005 0201410142 0103 000130 0309 ffffffff07 01000100",
    "00000000 0005 0201410142 0103 000132 0103 000134 0303 010100",
    // Chains of eight and of nine.
    "00000000 0015 0a 0141 0142 0162 0163 0164 0165 0166 0167 0168 0169 0103 000130 0311 08 0102 0203 0304 0405 0506 0607 0708 0800",
    "00000000 0015 0a 0141 0142 0162 0163 0164 0165 0166 0167 0168 0169 0103 000130 0313 09 0102 0203 0304 0405 0506 0607 0708 0809 0900",
    "00000000 0004 02014100 0103 000130 0303 010100",
];

/// Files in hex whose sizes have zero groups behind them (document 02, Ask 6), and counts that have.
const PADDED: [&str; 19] = [
    // Up to five bytes, and no sixth.
    "00000000 00 8300 010141",
    "00000000 00 8380808000 010141",
    "00000000 00 838080808000 010141",
    "00000000 00 8380808080 010141",
    "00000000 00 8080808000",
    // The value's range: the fifth byte by itself, and a size that passes the largest place.
    "00000000 00 8380808008 010141",
    "00000000 00 8380808007 010141",
    "00000000 00 ffffffff00 010141",
    // The padding counts in the largest place.
    "00000000 0007 03014101420143 01 eeffff01",
    "00000000 0007 03014101420143 01 eeffff8100",
    "00000000 0007 03014101420143 01 edffff8100",
    // All other counts are shortest.
    "00000000 0004 81000141",
    "00000000 0005 0201410142 0304 81000100",
    "00000000 0004 01810041",
    "00000000 0003010141 0105 8000013000",
    "00000000 0003010141 0203 810041",
    // Every size is shortened, and places count the padding.
    "00000000 00 8300 010141 c8 8200 aaaa",
    "00000000 00 83808000 010141 01 8300 000130 02",
    "00000000 00 83808000 010141 01 8400 00013000 02 828000 0178 03 8080808000 ff 818000 00",
];

/// The data in hex of a zone behind a pool that holds "A" only.
const ZONES: [&str; 56] = [
    // Reading 3: hours where there is no instant before.
    "0002020000303080010030300100",
    "000201 8001 00 30 30 01",
    // 4: the end's code at once, its use behind the tail byte.
    "00020100003030 8001",
    "00020100003030 00",
    "00020100003030 00 02",
    "00020100003030 00 00",
    "00020100003030 01 01 e0",
    "00020100003030 00 00 ff",
    "00020100003030 03",
    // 5: each part of a rule at once.
    "0002010000303080c2d72f0130001c00",
    "0002010000303080c2d72f01300080",
    "00020100003030e09bd12a01 30 00 1c8301 00 00 00",
    // 6: codes that end early.
    "00018c",
    "0001e0",
    "0001dfffff",
    "000201027f",
    "8080808080",
    "8080808000",
    "80808080",
    // 14: the tail's sum.
    "00020100003030e09bd12a01 5f 00 1c030132 00 1c0a0132 31",
    "00020100003030e09bd12a01 5f 00 1c030132 00 1c0a0132 30",
    // 15: the interval count at once.
    "000200",
    "00028120",
    // 19 to 23: tails.
    "0002010000303080c2d72f01 32 00 1c030132 00 1c0a0132 32",
    "00020100003030e09bd12a01 32 00 00030230 00 00030230 32",
    "00020100003030e09bd12a01 30 00 1c010230 00 000c3e48 32",
    "00020100003030e09bd12a01 30 00 1e023a30 00 00070230 32",
    "00020100003030e09bd12a01 30 00 20030230 00 20030230 34",
    // 24: the end's previous is the last start.
    "000202 00003030 e09bd12a003030 8001 01 30 00 000a0230 00 00030230 32",
    // Starts and ends that are equal, one tick apart, or marks.
    "000203 00003030 e09bd12a003030 e09bd12a003030 0100",
    "000203 00003030 e09bd12a003030 020000000000000001003030 0100",
    "000203 00003030 e09bd12a003030 02ffffffffffffffff003030 0100",
    "000202 00003030 00003030 0100",
    "000202 00003030 01003030 0100",
    "000201 e09bd12a003030 0100",
    "000201 01003030 0100",
    "000202 00003030 e09bd12a003030 e09bd12a 01 30 00 000a0230 00 00030230 32",
    "000202 00003030 e09bd12a003030 020000000000000001 01 30 00 000a0230 00 00030230 32",
    "000202 00003030 e09bd12a003030 01 01 30 00 000a0230 00 00030230 32",
    "000202 00003030 e09bd12a003030 e19bd12a 00",
    // Against the published format: 1048576 is hours, and a fixed zone has a name.
    "000203 00003030 e09bd12a003030 808040003030 0100",
    "000203 00003030 808040003030 808040003030 0100",
    "000130",
    // Local times, readings 3.2, 3.3 and 3.8: an hour ahead and behind, two readings and three.
    "000132",
    "00012e",
    "00020200003232 80c2d72f 003030 0100",
    "00020300003434 a6c1d72f 003232 e2c1d72f 003030 0100",
    // Standard offsets, readings 7.1 to 7.3: 24 hours either way, cut there, before a code that is refused, after savings that are;
    // a tail that stores +23:30, and a fixed zone at +23:30.
    "0002010000 5f2f 0100",
    "0002010000 0131 0100",
    "0002010000 5f2f",
    "0002010000 5f2f 03",
    "0002010000 5f60",
    "0002010000 5f31 e09bd12a 01 5f 00 1c0a0132 00 1c030132 2f",
    "00015f",
    // An hour forward, and an hour back, to a tail of one offset.
    "00020200003030 80c2d72f 003232 0100",
    "00020100003232 e09bd12a 01 30 00 1c0a0132 00 1c030132 30",
];

/// Local times at which those zones were worked out, and others that no zone reads.
const LOCAL_TIMES: [i64; 9] = [
    6_353_376_000_000_000,
    6_353_411_999_999_999,
    6_353_412_000_000_000,
    FIRST,
    LAST + 36_000_000_000,
    FIRST - 36_000_000_000,
    i64::MIN,
    i64::MAX,
    0,
];

/// A tail byte and a tail: no offset in winter, an hour less in summer.
const TAIL: &str = "01 30 00 1c0a0132 00 1c030132 2e";

pub fn hex(text: &str) -> Vec<u8> {
    let digits: Vec<u32> = text.chars().filter_map(|digit| digit.to_digit(16)).collect();
    digits.chunks(2).map(|pair| (pair[0] * 16 + pair[1]) as u8).collect()
}

pub fn count(value: usize) -> Vec<u8> {
    encode_count(value as i64).unwrap_or_default()
}

pub fn field(id: u8, data: &[u8]) -> Vec<u8> {
    [&[id], &count(data.len())[..], data].concat()
}

/// A count with zero groups behind it, in so many bytes, or in as many as it needs.
fn padded_count(value: usize, length: usize) -> Vec<u8> {
    let mut code = count(value);
    while code.len() < length {
        let last = code.len() - 1;
        code[last] |= 0x80;
        code.push(0);
    }
    code
}

/// A well-formed file with each of its sizes in as many bytes as `length` gives; no file where it isn't well formed.
pub fn padded(file: &[u8], mut length: impl FnMut() -> usize) -> Option<Vec<u8>> {
    let mut out = vec![0; 4];
    for field in read_file(file).ok()?.fields {
        out.push(field.id);
        out.extend(padded_count(field.data.len(), length()));
        out.extend(field.data);
    }
    Some(out)
}

/// Version, a pool of "A", and this data as a zone.
pub fn zone_file(data: &[u8]) -> Vec<u8> {
    [&[0; 4], &field(0, &[1, 1, b'A'])[..], &field(1, data)].concat()
}

/// Compares every case, and every prefix of it.
pub fn all(tally: &mut Tally, prng: &mut Prng) -> Result<(), Difference> {
    let files = FILES.iter().chain(&PADDED).map(|text| hex(text));
    for file in files.chain(ZONES.iter().map(|text| zone_file(&hex(text)))) {
        whole(tally, &file)?;
        let mut asked = Vec::new();
        for id in ["A", "B", "UTC", "GMT", ""] {
            asked.extend([FIRST, LAST, 0].map(|ticks| (id.as_bytes().to_vec(), ticks)));
        }
        prefixes(tally, &file, &asked, 1, prng)?;
        for local in LOCAL_TIMES {
            for id in ["A", "B", ""] {
                map(tally, &file, id.as_bytes(), local)?;
            }
        }
        for length in 0..file.len() {
            map(tally, &file[..length], b"A", 0)?;
        }
        if let Ok(contents) = read_file(&file) {
            for (_, zone) in &contents.zones {
                let id = &file[contents.pool[zone.id].clone()];
                for ticks in instants(zone, prng) {
                    ask(tally, &file, id, ticks)?;
                }
                for (id, local) in times(zone, id, usize::MAX, prng) {
                    map(tally, &file, &id, local)?;
                }
            }
        }
    }
    largest(tally)
}

/// The data of a pool with as many strings of 1,024 bytes as go into `length`, and one of what is left.
fn pool_of(length: usize) -> Vec<u8> {
    let text = |length: usize| [count(length), vec![b'x'; length]].concat();
    // The pool's count takes two bytes, as the length of a long string does.
    let (long, left) = ((length - 2) / 1026, (length - 2) % 1026);
    let mut data = count(long + 1);
    for _ in 0..long {
        data.extend(text(1024));
    }
    data.extend(text(left - 1));
    data
}

/// The largest sizes, just met and just passed.
fn largest(tally: &mut Tally) -> Result<(), Difference> {
    let mut files = Vec::new();
    for strings in [8191, 8192, 8193] {
        let pool = [count(strings), vec![0; strings]].concat();
        files.push([vec![0; 4], field(0, &pool), field(1, &[0, 1, 0x30, 0])].concat());
    }
    for length in [1023, 1024, 1025] {
        let text = [count(length), vec![b'x'; length]].concat();
        files.push([vec![0; 4], field(0, &[vec![1], text.clone()].concat())].concat());
        files.push([vec![0; 4], field(0, &[0]), field(2, &text)].concat());
    }
    for intervals in [4095, 4096, 4097] {
        let mut zone = [vec![0, 2], count(intervals), hex("00 00 30 30 02 F760800A084A8000 00 30 30")].concat();
        for _ in 2..intervals {
            zone.extend(hex("8001 00 30 30"));
        }
        zone.extend(hex("0100"));
        files.push(zone_file(&zone));
    }
    // A field that ends at the last place, and what may stand behind it.
    let full = [vec![0; 4], field(0, &pool_of(LAST_END - 9))].concat();
    assert_eq!((full.len(), second_reader::check(&full)), (LAST_END, (0, 0)));
    for behind in ["", "c8", "c800", "c88000", "01", "0180", "0100", "018000"] {
        files.push([full.clone(), hex(behind)].concat());
    }
    // A field that ends one byte behind it.
    files.push([vec![0; 4], field(0, &[0]), field(8, &vec![0; LAST_END - 11])].concat());
    // The same with the size in five bytes: the last place just met, and passed by the padding alone.
    for length in [LAST_END - 15, LAST_END - 14] {
        let head = [vec![0; 4], field(0, &[1, 1, b'A']), vec![8]].concat();
        files.push([head, padded_count(length, 5), vec![0; length]].concat());
    }
    // "The slice may be longer; only fields are limited."
    let mut longer = hex("00000000 0003010141 0104 00013000 08");
    longer.resize(LAST_END + 1000, 0xff);
    files.push(longer);
    for file in files {
        whole(tally, &file)?;
        for id in ["", "A"] {
            ask(tally, &file, id.as_bytes(), 0)?;
            map(tally, &file, id.as_bytes(), 0)?;
        }
    }
    many_instants(tally)
}

/// Zones of 1 to 4,096 intervals, of which each has an instant that reads as the local time: from one to the next clocks go back
/// by as many milliseconds as pass.
fn many_instants(tally: &mut Tally) -> Result<(), Difference> {
    for intervals in [1, 2, 3, 100, 4095, 4096] {
        let mut zone = [vec![0, 2], count(intervals), hex("00 00 30 30")].concat();
        for number in 1..intervals as i64 {
            zone.extend([&[2][..], &(number * TICKS_PER_MS).to_be_bytes(), &[0]].concat());
            zone.extend(encode_offset(-number).unwrap_or_default());
            zone.push(0x30);
        }
        let ends =
            [hex("01 00"), [hex("02"), (intervals as i64 * TICKS_PER_MS).to_be_bytes().to_vec(), hex(TAIL)].concat()];
        for end in ends {
            let file = zone_file(&[&zone[..], &end].concat());
            for local in [-1, 0, 1, TICKS_PER_MS] {
                map(tally, &file, b"A", local)?;
            }
        }
    }
    Ok(())
}
