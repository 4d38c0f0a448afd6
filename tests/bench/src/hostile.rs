//! Files made to be slow, in four sizes each.

use crate::files::{content, in_ticks, preferred, realistic_file};
use crate::found::Found;
use crate::inputs::{instants, trace};
use crate::tools::Tool;
use crate::work::Work;
use second_reader::codes::encode_count;
use second_reader::generate::FileContent;
use second_reader::recurrence::parse_tail;
use second_reader::starts::starts_of;
use second_reader::zone::{Interval, Rest, Zone};
use second_reader::Transition;

const TICKS_PER_HOUR: i64 = 36_000_000_000;
const TICKS_PER_MS: i64 = 10_000;
/// A year of the calendar, which is 365.2425 days.
const TICKS_PER_YEAR: i64 = 315_569_520_000_000;

/// A file of one of four sizes, and what is asked of it.
pub struct Grown {
    pub file: Vec<u8>,
    /// The ID of the last zone.
    pub last: Vec<u8>,
    /// An ID that the file has not, as like those that it has as can be.
    pub absent: Vec<u8>,
    /// A local time to ask of the last zone, where that is measured.
    pub local: Option<i64>,
    /// An alias to ask, where that is measured.
    pub alias: Option<Vec<u8>>,
    /// The number of the last location of fields 6 and 7, where that is measured.
    pub located: Option<u64>,
    /// Further work and its name; each size has the same.
    pub more: Vec<(&'static str, Work)>,
    /// The length of what grows.
    pub length: usize,
}

impl Grown {
    fn new(file: Vec<u8>, last: Vec<u8>, absent: Vec<u8>) -> Grown {
        let length = file.len();
        Grown { file, last, absent, local: None, alias: None, located: None, more: Vec::new(), length }
    }
}

/// What is measured on a file.
pub enum Rows {
    /// All that a well-formed file is good for.
    WellFormed,
    /// What a refused file is.
    Refused,
    /// Only the further work that comes with it.
    More,
}

/// Makes a file whose length grows with a factor of 1, 2, 4 or 8, up to the largest sizes.
pub struct Growing {
    pub name: &'static str,
    pub make: fn(usize) -> Grown,
    pub rows: Rows,
}

/// Files on which a reader with a cost that isn't linear would show it.
pub const GROWING: [Growing; 22] = [
    Growing {
        name: "1,024 to 8,192 zones, IDs of 503 bytes that differ at the end",
        make: |factor| replayed(fixed_zones(1024 * factor, |number| format!("{}{number:04}", "x".repeat(499)))),
        rows: Rows::WellFormed,
    },
    Growing {
        name: "1,024 to 8,192 zones, IDs of 503 bytes that differ in the middle",
        make: |factor| fixed_zones(1024 * factor, |number| format!("{0}{number:04}{0}x", "x".repeat(249))),
        rows: Rows::WellFormed,
    },
    Growing {
        name: "1,024 to 8,192 zones, IDs of 503 bytes in descending order",
        make: |factor| fixed_zones(1024 * factor, |number| format!("{}{:04}", "x".repeat(499), 9999 - number)),
        rows: Rows::WellFormed,
    },
    Growing {
        name: "1,024 to 8,192 zones, IDs of 503 bytes in no order",
        make: |factor| fixed_zones(1024 * factor, |number| format!("{}{:04}", "x".repeat(499), scattered(number))),
        rows: Rows::WellFormed,
    },
    Growing {
        name: "1,024 to 8,192 zones, IDs of 14 bytes in no order",
        make: |factor| fixed_zones(1024 * factor, |number| format!("Area/City_{:04}", scattered(number))),
        rows: Rows::WellFormed,
    },
    Growing {
        name: "1,024 to 8,192 zones, IDs of 500 bytes that all have one hash by FNV's factor",
        make: |factor| {
            let ids = of_one_hash(1024 * factor);
            fixed_zones(ids.len(), |number| ids[number].clone())
        },
        rows: Rows::WellFormed,
    },
    Growing {
        name: "512 to 4,096 zones and as many aliases, IDs of 503 bytes that differ at the end",
        make: |factor| aliased(1024 * factor, 512 * factor, |number| format!("{}{number:04}", "x".repeat(499))),
        rows: Rows::WellFormed,
    },
    Growing {
        name: "one zone and 1,023 to 8,191 aliases in chains of eight, the first behind the last in the order of bytes",
        make: |factor| aliased(1024 * factor, 1, |number| format!("{:04}", 9999 - number)),
        rows: Rows::WellFormed,
    },
    Growing {
        name: "1,024 to 8,192 zones of 60 intervals",
        make: |factor| {
            let zones = (0..1024 * factor).map(|id| listed(id, 60)).collect();
            grown(names(1024 * factor), zones, preferred)
        },
        rows: Rows::WellFormed,
    },
    Growing {
        name: "1,024 to 8,192 strings of 169 three-byte characters",
        make: |factor| {
            let count = 1024 * factor;
            let pool = (0..count).map(|_| "中".repeat(169)).chain(["Zone".to_string()]).skip(1).collect();
            grown(pool, vec![fixed(count - 1)], preferred)
        },
        rows: Rows::WellFormed,
    },
    Growing {
        name: "25 to 200 zones of 4,096 intervals in hours",
        make: |factor| {
            let zones = (0..25 * factor).map(|id| listed(id, 4096)).collect();
            grown(names(25 * factor), zones, preferred)
        },
        rows: Rows::WellFormed,
    },
    Growing {
        name: "10 to 80 zones of 4,096 intervals in ticks",
        make: |factor| {
            let zones = (0..10 * factor).map(|id| listed(id, 4096)).collect();
            grown(names(10 * factor), zones, in_ticks)
        },
        rows: Rows::WellFormed,
    },
    Growing {
        name: "10 to 80 zones of 4,096 intervals, offsets of four bytes and standard offsets near 24 hours",
        make: |factor| {
            let odd = |number: usize| (86_399_999 - 2 * (number % 400) as i32, 1 + 2 * (number % 400) as i32);
            let zones = (0..10 * factor).map(|id| listed_at(id, 4096, odd)).collect();
            grown(names(10 * factor), zones, preferred)
        },
        rows: Rows::WellFormed,
    },
    Growing {
        name: "one zone of 512 to 4,096 intervals",
        make: |factor| one_list(512 * factor),
        rows: Rows::WellFormed,
    },
    Growing {
        name: "one zone of 512 to 4,096 intervals, each with an instant that reads as the local time",
        make: |factor| Grown { local: Some(0), ..grown(names(1), vec![going_back(0, 512 * factor)], preferred) },
        rows: Rows::WellFormed,
    },
    Growing {
        name: "261,000 to 2,088,000 fields of no data",
        make: |factor| with_fields(vec![(8, Vec::new()); 261_000 * factor]),
        rows: Rows::WellFormed,
    },
    Growing {
        name: "87,000 to 696,000 fields of no data, sizes in five bytes",
        make: |factor| {
            let mut grown = grown(names(1), vec![fixed(0)], preferred);
            grown.file.extend([8, 0x80, 0x80, 0x80, 0x80, 0].repeat(87_000 * factor));
            grown.length = grown.file.len();
            grown
        },
        rows: Rows::WellFormed,
    },
    Growing {
        name: "87,000 to 696,000 zones of one ID, 1,024 bytes long",
        make: |factor| grown(vec!["x".repeat(1024)], vec![fixed(0); 87_000 * factor], preferred),
        rows: Rows::Refused,
    },
    Growing {
        name: "30,000 to 240,000 locations in field 6 and as many in field 7",
        make: |factor| located(30_000 * factor),
        rows: Rows::WellFormed,
    },
    Growing {
        name: "a location of 2,147,483,647 countries, of which 261,000 to 2,088,000 are there",
        make: |factor| {
            // One location at 0 degrees, and pairs of the first pool string until the data end.
            let data = [&[1, 0, 0, 0xfe, 0xff, 0xff, 0xff, 0x0f][..], &vec![0; 2 * 261_000 * factor]].concat();
            with_fields(vec![(7, data)])
        },
        rows: Rows::Refused,
    },
    Growing {
        name: "a trace of 1,250 to 10,000 records, all zones of `all.nzd` in turn",
        make: |factor| traced(1250 * factor),
        rows: Rows::More,
    },
    Growing {
        name: "a tail and one with another rule, over 1,000 to 8,000 years",
        make: |factor| over_tail(1000 * factor as i64),
        rows: Rows::More,
    },
];

/// One zone with a long list, and beside it one of which every other interval has half an hour more.
fn one_list(count: usize) -> Grown {
    let zone = listed(0, count);
    let other = listed_at(0, count, |number| ((number % 2) as i32 * 5_400_000, (number % 2) as i32 * 5_400_000));
    let table = starts_of(&zone);
    let instants = instants(&table);
    let mut grown = Grown { local: Some(0), ..grown(names(1), vec![zone], preferred) };
    let difference = Tool::Difference {
        other: self::grown(names(1), vec![other], preferred).file,
        ids: vec![grown.last.clone()],
        first: nzd::FIRST_INSTANT,
        last: nzd::LAST_INSTANT,
    };
    grown.more = vec![
        ("difference, every other interval changed", Work::Tool(difference)),
        ("interval starts", Work::Tool(Tool::Starts { id: grown.last.clone() })),
        ("table of all answers", Work::found(Found::List { id: grown.last.clone(), rows: count })),
        (
            "10,000 questions over that table",
            Work::found(Found::AskListed { id: grown.last.clone(), rows: count, instants: instants.clone() }),
        ),
        ("10,000 searches in the starts", Work::Tool(Tool::Search { table, instants })),
    ];
    grown
}

/// The same file with a replay of a hundred records, of its last zones in turn.
fn replayed(grown: Grown) -> Grown {
    let content = content(&grown.file).expect("well formed");
    let zones: Vec<&Zone> = content.zones.iter().rev().take(100).collect();
    let trace = trace(&content, &zones, 100, 0, 100);
    Grown { more: vec![("replay, 100 records, last zones in turn", Work::Tool(Tool::Replay { trace }))], ..grown }
}

/// A trace of what `all.nzd` shows.
fn traced(count: usize) -> Grown {
    let file = realistic_file("all.nzd").expect("a realistic file");
    let content = content(&file).expect("well formed");
    let trace = trace(&content, &content.zones.iter().collect::<Vec<_>>(), count, 0, TICKS_PER_YEAR * 100);
    let length = trace.len();
    let more = vec![("replay", Work::Tool(Tool::Replay { trace }))];
    Grown { more, length, ..Grown::new(file, Vec::new(), Vec::new()) }
}

/// A zone with a tail from 1970 on, and one whose standard time begins an hour later.
fn over_tail(years: i64) -> Grown {
    let file = |time: u8| {
        // One hour ahead, and two from the last Sunday of March to that of October.
        let tail = [0x32, 0, 0x1c, 10, 1, time, 0, 0x1c, 3, 1, 0x32, 0x32];
        let (tail, _) = parse_tail(&tail).expect("a tail");
        let intervals = vec![Interval { start: Transition::StartOfTime, name: 0, wall: 0, savings: 0 }];
        let rest = Rest::Listed { intervals, end: Transition::Finite(0), tail: Some(tail) };
        grown(names(1), vec![Zone { id: 0, rest }], preferred)
    };
    let mut one = file(0x32);
    let ids = vec![one.last.clone()];
    let difference = Tool::Difference { other: file(0x34).file, ids, first: 0, last: years * TICKS_PER_YEAR };
    one.more = vec![("difference", Work::Tool(difference))];
    one
}

/// Locations at 0 degrees, of one country each, whose texts are the pool's only string.
fn located(count: usize) -> Grown {
    let field = |location: &[u8]| [encode_count(count as i64).expect("a count"), location.repeat(count)].concat();
    let fields = vec![(6, field(&[0; 6])), (7, field(&[0, 0, 2, 0, 0, 0, 0]))];
    Grown { located: Some(count as u64 - 1), ..with_fields(fields) }
}

/// One zone, and these fields behind it.
fn with_fields(others: Vec<(u8, Vec<u8>)>) -> Grown {
    let pool = names(1).into_iter().map(String::into_bytes).collect();
    let content = FileContent { pool, zones: vec![fixed(0)], others, ..FileContent::default() };
    Grown::new(preferred(&content), content.pool[0].clone(), b"Zone".to_vec())
}

fn names(count: usize) -> Vec<String> {
    (0..count).map(|number| format!("Area/City_{number:04}")).collect()
}

fn fixed_zones(count: usize, id: impl Fn(usize) -> String) -> Grown {
    grown((0..count).map(id).collect(), (0..count).map(fixed).collect(), preferred)
}

/// The numbers below 8,192 in no order, each once: multiplying by an odd number turns none into another's.
fn scattered(number: usize) -> usize {
    (number * 5167 + 3001) % 8192
}

/// IDs that all have one hash, such as a table of IDs might use: four bytes at a time, low first, `h = (h + word) * FACTOR`, of which the
/// highest 14 bits count. So the last four bytes are chosen by what is to come out.
fn of_one_hash(count: usize) -> Vec<String> {
    const FACTOR: u32 = 16_777_619;
    let front = "x".repeat(496);
    let word = |bytes: &[u8]| bytes.iter().rev().fold(0, |word: u32, &byte| word << 8 | u32::from(byte));
    let add = |hash: u32, bytes| hash.wrapping_add(word(bytes)).wrapping_mul(FACTOR);
    let hash = front.as_bytes().chunks(4).fold(2_166_136_261, add);
    // Newton's iteration for 1 / FACTOR modulo 2^32: each step doubles the bits that are right, of which an odd number's own are three.
    let inverse =
        (0..4).fold(FACTOR, |inverse, _| inverse.wrapping_mul(2u32.wrapping_sub(FACTOR.wrapping_mul(inverse))));
    // All numbers with the highest bits 5; the ends that are ASCII, about one in sixteen, are taken.
    let ends = (5 << 18..6 << 18).map(|sum: u32| sum.wrapping_mul(inverse).wrapping_sub(hash).to_le_bytes());
    let ids = ends.filter(|end| end.is_ascii()).map(|end| front.clone() + &String::from_utf8_lossy(&end));
    let ids: Vec<String> = ids.take(count).collect();
    assert_eq!(ids.len(), count, "IDs of one hash");
    ids
}

/// Strings of which the first so many are zones and all others aliases: of the zone as far behind, or in chains of eight to the only one.
fn aliased(count: usize, zones: usize, id: impl Fn(usize) -> String) -> Grown {
    let pool: Vec<Vec<u8>> = (0..count).map(|number| id(number).into_bytes()).collect();
    let target = |number: usize| match zones {
        1 if number % 8 == 1 => 0,
        1 => number - 1,
        _ => number % zones,
    };
    let aliases = Some((zones..count).map(|number| (number, target(number))).collect());
    let (last, alias) = (pool[zones - 1].clone(), pool[count - count % 8 - 1].clone());
    let content = FileContent { pool, zones: (0..zones).map(fixed).collect(), aliases, ..FileContent::default() };
    Grown { alias: Some(alias), ..Grown::new(preferred(&content), last, b"No/Such_Zone".to_vec()) }
}

fn grown(pool: Vec<String>, zones: Vec<Zone>, write: fn(&FileContent) -> Vec<u8>) -> Grown {
    let pool: Vec<Vec<u8>> = pool.into_iter().map(String::into_bytes).collect();
    let last = zones.last().map_or(Vec::new(), |zone| pool[zone.id].clone());
    // The last zone's ID with another last byte.
    let mut absent = last.clone();
    if let Some(byte) = absent.last_mut() {
        *byte = b'?';
    }
    Grown::new(write(&FileContent { pool, zones, ..FileContent::default() }), last, absent)
}

fn fixed(id: usize) -> Zone {
    Zone { id, rest: Rest::Fixed { offset: 0, name: Some(0) } }
}

/// A zone whose intervals are 200 days long.
fn listed(id: usize, count: usize) -> Zone {
    let hour = |number: usize| (number % 2) as i32 * 3_600_000;
    listed_at(id, count, |number| (hour(number), hour(number)))
}

/// The same with a wall offset and savings for each interval.
fn listed_at(id: usize, count: usize, offsets: impl Fn(usize) -> (i32, i32)) -> Zone {
    let start = |number: usize| match number as i64 {
        0 => Transition::StartOfTime,
        number => Transition::Finite(number * 200 * 24 * TICKS_PER_HOUR - 400_000_000_000_000_000),
    };
    let interval = |number| {
        let (wall, savings) = offsets(number);
        Interval { start: start(number), name: 0, wall, savings }
    };
    let intervals = (0..count).map(interval).collect();
    Zone { id, rest: Rest::Listed { intervals, end: Transition::EndOfTime, tail: None } }
}

/// A zone whose clocks go back, from an interval to the next, by as many milliseconds as the interval has: each has an instant
/// that reads as the local time 0.
fn going_back(id: usize, count: usize) -> Zone {
    let start = |number: usize| match number as i64 {
        0 => Transition::StartOfTime,
        number => Transition::Finite(number * TICKS_PER_MS),
    };
    let interval = |number| Interval { start: start(number), name: 0, wall: -(number as i32), savings: 0 };
    let intervals = (0..count).map(interval).collect();
    Zone { id, rest: Rest::Listed { intervals, end: Transition::EndOfTime, tail: None } }
}
