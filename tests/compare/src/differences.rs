//! Where two files differ: by the C function and by the wrapper.

use crate::cases::hex;
use crate::lent;
use crate::tally::{Difference, Tally};
use crate::whole::{error_pair, pair};
use nzd::{ffi, Stretch};
use second_reader::difference::differences;
use second_reader::generate::{instants, Prng};
use second_reader::transition::{FIRST, LAST, TICKS_PER_DAY};
use second_reader::zone::{Rest, Zone};
use std::fmt;

/// From the first instant to before the last.
pub type Window = (i64, i64);

/// With more stretches than this only the rooms just enough and one short are taken.
const MANY: usize = 500;
/// The longest window of zones with a tail, which has two intervals a year, but for those that are asked whole.
const LONGEST: i64 = 40 * 366 * TICKS_PER_DAY;

struct Asked<'a> {
    id: &'a [u8],
    window: Window,
    room: usize,
    other: &'a [u8],
}

impl fmt::Display for Asked<'_> {
    fn fmt(&self, f: &mut fmt::Formatter<'_>) -> fmt::Result {
        let Asked { id, window, room, other } = self;
        let id = id.escape_ascii().to_string();
        writeln!(f, "{id:?} in {window:?} with room for {room}, beside {} bytes: ", other.len())?;
        other.iter().take(4000).try_for_each(|byte| write!(f, "{byte:02x}"))
    }
}

/// Compares the stretches of a window, with lists of every length around the needed one.
pub fn compare(tally: &mut Tally, files: [&[u8]; 2], id: &[u8], window: Window) -> Result<(), Difference> {
    let ([file, other], (first, last)) = (files, window);
    let theirs = differences(files, id, first, last).map_err(pair);
    let count = theirs.as_ref().map_or(0, Vec::len);
    // A list of numbers, of which an odd one is room for no more.
    let numbers = theirs.map(|all| all.into_iter().flat_map(|(first, end)| [first, end]).collect::<Vec<i64>>());
    let rooms = match count {
        0 => vec![0, 3],
        1..=MANY => (2 * count - 2..2 * count + 2).chain([0]).collect(),
        _ => vec![2 * count - 1, 2 * count],
    };
    for room in rooms {
        let expected = match &numbers {
            Ok(all) if all.len() > room => Err((15, 0)),
            known => known.clone(),
        };
        let asked = Asked { id, window, room, other };
        let ours =
            lent::listed(room, 2, file, |list, count| ffi::difference(file, other, id, first, last, list, count))?;
        tally.same_of("difference", &asked, file, ours, expected.clone())?;
        if room % 2 == 1 {
            continue;
        }
        let mut list = vec![Stretch::default(); room / 2];
        let wrapped = nzd::difference(file, other, id, first, last, &mut list).map_err(error_pair);
        let wrapped = wrapped.map(|count| list[..count].iter().flat_map(|found| [found.first, found.end]).collect());
        tally.same_of("difference", &asked, file, wrapped, expected)?;
    }
    Ok(())
}

/// Windows that hold no instant or reach out of range, and those at both ends of time.
fn odd_windows(ticks: i64) -> [Window; 12] {
    [
        (ticks, ticks),
        (ticks, ticks - 1),
        (LAST, FIRST),
        (LAST, LAST),
        (FIRST - 1, ticks),
        (ticks, LAST + 1),
        (LAST, LAST + 1),
        (i64::MIN, i64::MAX),
        (FIRST, FIRST + 1),
        (LAST - 1, LAST),
        (FIRST, FIRST + LONGEST),
        (LAST - LONGEST, LAST),
    ]
}

/// Windows for two zones with the same ID: a few of the odd ones, and some between bounds of both; all of time, too, where that is asked
/// for or neither has a tail.
pub fn windows(zones: [&Zone; 2], whole: bool, prng: &mut Prng) -> Vec<Window> {
    let bounds = zones.map(|zone| instants(zone, prng)).concat();
    let odd = odd_windows(*prng.pick(&bounds));
    let mut windows: Vec<Window> = (0..3).map(|_| *prng.pick(&odd)).collect();
    let tail = zones.iter().any(|zone| matches!(zone.rest, Rest::Listed { tail: Some(_), .. }));
    for _ in 0..3 {
        let (one, other) = (*prng.pick(&bounds), *prng.pick(&bounds));
        let (first, last) = (one.min(other), one.max(other));
        windows.push((first, if tail { last.min(first + LONGEST) } else { last }));
    }
    if whole || !tail {
        windows.push((FIRST, LAST));
    }
    windows
}

/// The worked cases of the readings, each in both orders of the files.
pub fn worked(tally: &mut Tally) -> Result<(), Difference> {
    // The pool "A", "B", "C"; the first file has the zone "A" at 0.
    let [pool, fixed] = ["00000000 0007 03014101420143", "0104 00013000"].map(hex);
    let file = |zone: &str| [&pool[..], &hex(zone)].concat();
    let others = [
        "",
        "0104 00013000",
        "0104 00013200",
        // Reading 14.3, and a zone that differs twice.
        "0121 00020300003230 02000000000000000a 013030 020000000000000014 0030300100",
        "0121 00020300003230 02000000000000000a 003030 020000000000000014 0032300100",
        // 14.4: an interval from start to end of time. 14.6: damage behind the zone.
        "0109 000201000030300100",
        "0104 00013200 00",
        // 14.8: names.
        "0103 000130",
        "0104 00013001",
        // Savings alone, and a tail that differs in summer.
        "0109 000201000030320100",
        "011d 00020100003030 020000000000000000 01 30 00 1c0a0132 00 1c030132 32",
    ];
    let other_pool = hex("00000000 0007 03014201410141 0104 01013002");
    let others = others.iter().map(|zone| file(zone)).chain([Vec::new(), pool[..12].to_vec(), other_pool]);
    let one = [&pool[..], &fixed].concat();
    for other in others {
        for files in [[&one[..], &other], [&other, &one], [&other, &other]] {
            for (first, last) in [(0, 30), (5, 12), (19, 30), (20, 30), (3, 5), (6, 5), (0, 1), (FIRST, LAST)] {
                for id in ["A", "C", ""] {
                    compare(tally, files, id.as_bytes(), (first, last))?;
                }
            }
            for window in odd_windows(10) {
                compare(tally, files, b"A", window)?;
            }
        }
    }
    Ok(())
}
