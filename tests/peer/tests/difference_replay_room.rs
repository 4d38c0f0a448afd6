//! The peer beside the second reader: equal differences, replays, tables of starts, halvings and closed files.

use second_reader::generate::{
    changed_content, damaged, damaged_trace, instants, plan, random_content, Damage, FileContent, FilePlan, Forms,
    Prng, Size, Trace,
};
use second_reader::locations::Location;
use second_reader::transition::{FIRST, LAST, TICKS_PER_HOUR};
use second_reader::zone::{Interval, Rest, Zone};
use second_reader::{Refusal, Transition};
use std::collections::BTreeSet;

type Pair = (u8, usize);

fn pair(refusal: Refusal) -> Pair {
    (refusal.number.value(), refusal.place as usize)
}

fn peer_pair(refusal: peer::Refusal) -> Pair {
    (refusal.number, refusal.place)
}

/// Notes a result's number, 0 for an answer.
fn note<T>(seen: &mut BTreeSet<u8>, result: &Result<T, Pair>) {
    seen.insert(result.as_ref().map_or_else(|refusal| refusal.0, |_| 0));
}

fn shown(file: &[u8]) -> &[u8] {
    &file[..file.len().min(2000)]
}

/// Bytes in the readings' notation: hex digits, V for the version, P for the strings A, B and C, A for a fixed zone of that ID.
fn bytes_of(text: &str) -> Vec<u8> {
    let hex = text.replace('V', "00000000").replace('P', "000703014101420143").replace('A', "010400013000");
    let digits: Vec<u8> = hex.chars().filter_map(|digit| digit.to_digit(16)).map(|digit| digit as u8).collect();
    digits.chunks(2).map(|pair| pair[0] << 4 | pair[1]).collect()
}

fn realistic(name: &str) -> Vec<u8> {
    std::fs::read(format!("{}/../data/{name}", env!("CARGO_MANIFEST_DIR"))).expect("a realistic file")
}

/// A content, its file, and one that is damaged.
fn generated(seed: u64, prng: &mut Prng) -> (FileContent, Vec<u8>, Vec<u8>) {
    let size = if seed.is_multiple_of(4) { Size::Any } else { Size::Small };
    let content = random_content(prng, size);
    let (good, bad) = good_and_bad(&content, prng);
    (content, good, bad)
}

fn good_and_bad(content: &FileContent, prng: &mut Prng) -> (Vec<u8>, Vec<u8>) {
    let whole: FilePlan = plan(content, &mut Forms::Any(prng));
    let kind = *prng.pick(&Damage::ALL);
    (whole.bytes(), damaged(&whole, kind, prng))
}

/// The IDs of a content's zones, and one that it hasn't.
fn ids(content: &FileContent) -> Vec<Vec<u8>> {
    content.zones.iter().map(|zone| content.id(zone).to_vec()).chain([b"No/Such_Zone".to_vec()]).collect()
}

/// With lists that have room for all stretches, for one less, for none and for one more.
fn same_difference(files: [&[u8]; 2], id: &[u8], first: i64, last: i64, seen: &mut BTreeSet<u8>) {
    let count = second_reader::difference::differences(files, id, first, last).map_or(0, |all| all.len());
    for room in [count, count.saturating_sub(1), 0, count + 1] {
        let (mut wanted, mut list) = (vec![(7, 7); room], vec![(7, 7); room]);
        let expected = second_reader::difference(files, id, first, last, &mut wanted).map_err(pair);
        let given = peer::difference(files, id, first, last, &mut list).map_err(peer_pair);
        note(seen, &expected);
        let [one, two] = files.map(shown);
        assert_eq!(given, expected, "{one:02x?}, {two:02x?}, {id:?} from {first} to {last}, room for {room}");
        assert!(list == wanted, "{one:02x?}, {two:02x?}, {id:?} from {first} to {last}, room for {room}");
    }
}

/// Whole windows, short ones, empty ones and some that leave the range, with bounds at a zone's instants.
fn windows(content: &FileContent, number: usize, prng: &mut Prng) -> Vec<(i64, i64)> {
    let among = content.zones.get(number).map_or(vec![0], |zone| instants(zone, prng));
    let mut windows = vec![(FIRST, LAST), (LAST, FIRST), (FIRST - 1, 0), (0, LAST + 1)];
    for _ in 0..4 {
        let (one, other) = (*prng.pick(&among), *prng.pick(&among));
        windows.extend([(one.min(other), one.max(other)), (one, one.saturating_add(prng.range(0, 1 << 50)))]);
    }
    // The second reader takes a step for each interval, so a whole tail is walked now and then only.
    windows.retain(|&(first, last)| last.saturating_sub(first) < 1 << 56 || prng.one_in(80));
    windows
}

#[test]
fn differences_of_generated_files() {
    let mut seen = BTreeSet::new();
    for seed in 0..400 {
        let mut prng = Prng::of_case(14, seed);
        let (content, good, bad) = generated(seed, &mut prng);
        let changed = changed_content(&content, &mut prng);
        let (other, other_bad) = good_and_bad(&changed, &mut prng);
        for (number, id) in ids(&content).iter().enumerate() {
            for (first, last) in windows(&content, number, &mut prng) {
                for files in [[&good, &other], [&other, &good], [&good, &bad], [&bad, &other_bad]] {
                    same_difference(files.map(Vec::as_slice), id, first, last, &mut seen);
                }
            }
        }
    }
    assert_eq!(seen, BTreeSet::from([0, 2, 3, 4, 5, 6, 7, 8, 9, 10, 11, 12, 14, 15]));
}

#[test]
fn differences_of_realistic_files() {
    let (all, europe) = (realistic("all.nzd"), realistic("europe.nzd"));
    let contents = second_reader::file::read_file(&europe).expect("well formed");
    let content = FileContent {
        pool: contents.pool.iter().map(|part| europe[part.clone()].to_vec()).collect(),
        zones: contents.zones.into_iter().map(|(_, zone)| zone).collect(),
        ..FileContent::default()
    };
    let mut prng = Prng::new(14);
    let changed = plan(&changed_content(&content, &mut prng), &mut Forms::Preferred).bytes();
    let mut seen = BTreeSet::new();
    // 1900 to 2100, and for a few zones all of time.
    for (number, id) in ids(&content).iter().enumerate() {
        for files in [[&europe, &changed], [&all, &europe], [&changed, &all]] {
            let files = files.map(Vec::as_slice);
            same_difference(files, id, -22_089_888_000_000_000, 41_024_448_000_000_000, &mut seen);
            if number % 10 == 1 {
                same_difference(files, id, FIRST, LAST, &mut seen);
            }
        }
    }
    assert_eq!(seen, BTreeSet::from([0, 12, 15]));
}

#[test]
fn worked_differences() {
    let mut seen = BTreeSet::new();
    let three = "V P 0121 00020300003230 02000000000000000a 013030 020000000000000014 0030300100";
    let files = [
        "V P A",
        "V P 0104 00013200",
        three,
        "V P 0121 00020300003230 02000000000000000a 003030 020000000000000014 0032300100",
        "V P 0109 000201000030300100",
        "V P 011d 00020100003030 020000000000000000 01 32 01 1c0a0132 02 1c030132 32",
        "V P 0103 000130",
        "V P 0104 00013001",
        "V P 0104 00013200 00",
        "V P 0104 00016000",
        "V P",
        "V",
        "",
    ]
    .map(bytes_of);
    let windows =
        [(0, 30), (5, 12), (19, 30), (20, 30), (6, 5), (5, 5), (FIRST, LAST), (LAST, LAST + 1), (FIRST - 1, 0)];
    for one in &files {
        for two in &files {
            for (first, last) in windows {
                for id in [&b"A"[..], b"C", b""] {
                    same_difference([one, two], id, first, last, &mut seen);
                }
            }
        }
    }
    assert_eq!(seen, BTreeSet::from([0, 2, 5, 7, 12, 14, 15]));
    let mut list = [(0, 0)];
    assert_eq!(peer::difference([&files[0], &files[2]], b"A", 0, 30, &mut list), Ok(1));
    assert_eq!(list, [(0, 20)]);
}

fn same_replay(file: &[u8], trace: &[u8], seen: &mut BTreeSet<u8>) {
    let expected = second_reader::replay(file, trace).map_err(pair);
    note(seen, &expected);
    assert_eq!(peer::replay(file, trace).map_err(peer_pair), expected, "{:02x?}, {:02x?}", shown(file), shown(trace));
}

/// Traces that are right, wrong or damaged, on files that are good or damaged.
#[test]
fn replays() {
    let mut seen = BTreeSet::new();
    for seed in 0..6000 {
        let mut prng = Prng::of_case(15, seed);
        let (content, good, bad) = generated(seed, &mut prng);
        let mut trace = Trace::random(&content, &good, &mut prng);
        // The same records several times, so that zones come again.
        let records = trace.records.clone();
        for _ in 0..prng.below(3) {
            trace.records.extend(records.iter().cloned());
        }
        let bytes = trace.bytes(&mut prng);
        for file in [&good, &bad] {
            same_replay(file, &bytes, &mut seen);
            same_replay(file, &damaged_trace(&bytes, &mut prng), &mut seen);
        }
    }
    let header = |numbers: [u32; 4]| numbers.map(u32::to_be_bytes).concat();
    let file = bytes_of("V P A");
    for trace in [
        header([0, 16, 0, 16]),
        header([0, 17, 0, 16]),
        header([0, 16, 0, 17]),
        header([0, 16, 1, 16]),
        header([1, 16, 0, 0]),
        header([0, 0, 0, 0])[..15].to_vec(),
        vec![],
        [header([0xcccc_cccd, 0, 0, 0]), vec![0; 64]].concat(),
    ] {
        same_replay(&file, &trace, &mut seen);
        same_replay(&[], &trace, &mut seen);
    }
    assert_eq!(seen, BTreeSet::from([0, 21]));
}

/// A trace of what a realistic file shows: nothing is wrong; then one offset is.
#[test]
fn replays_of_realistic_files() {
    let mut seen = BTreeSet::new();
    for name in ["all.nzd", "europe.nzd"] {
        let file = realistic(name);
        let contents = second_reader::file::read_file(&file).expect("well formed");
        let mut prng = Prng::new(16);
        let mut trace = Trace::default();
        for (_, zone) in contents.zones.iter().chain(contents.zones.iter().rev()).step_by(11) {
            let id = &file[contents.pool[zone.id].clone()];
            for instant in instants(zone, &mut prng).into_iter().step_by(29) {
                let shown = zone.at(instant).interval.wall;
                let (start, length) = (trace.names.len() as u32, id.len() as u32);
                trace.records.push(second_reader::generate::Record { instant, start, length, shown });
            }
            trace.names.extend(id);
        }
        let bytes = trace.bytes(&mut prng);
        assert_eq!(peer::replay(&file, &bytes), Ok(None));
        same_replay(&file, &bytes, &mut seen);
        let wrong = trace.records.len() - 3;
        trace.records[wrong].shown += 1;
        assert_eq!(peer::replay(&file, &trace.bytes(&mut prng)), Ok(Some(wrong as u32)));
    }
}

/// With tables that have room for all starts, for one less, for none and for more.
fn same_starts(file: &[u8], id: &[u8], seen: &mut BTreeSet<u8>) {
    let count = second_reader::interval_starts(file, id, &mut vec![7; 4096]).unwrap_or(0);
    for room in [count, count.saturating_sub(1), 0, count + 2] {
        let (mut wanted, mut table) = (vec![7; room], vec![7; room]);
        let expected = second_reader::interval_starts(file, id, &mut wanted).map_err(pair);
        note(seen, &expected);
        let given = peer::interval_starts(file, id, &mut table).map_err(peer_pair);
        assert_eq!((given, table), (expected, wanted), "{:02x?}, {id:?}, room for {room}", shown(file));
    }
}

#[test]
fn tables_of_starts() {
    let mut seen = BTreeSet::new();
    for seed in 0..1500 {
        let mut prng = Prng::of_case(17, seed);
        let (content, good, bad) = generated(seed, &mut prng);
        for id in ids(&content) {
            same_starts(&good, &id, &mut seen);
            same_starts(&bad, &id, &mut seen);
        }
    }
    for file in [
        "V P 011d 00020100003030 020000000000000000 01 32 01 1c0a0132 02 1c030132 32",
        "V P 0115 00020200003030 02000000000000000a 013030 0100",
        "V P A",
        "",
    ] {
        for id in [b"A", b"C"] {
            same_starts(&bytes_of(file), id, &mut seen);
        }
    }
    let all = realistic("all.nzd");
    for id in [&b"Europe/Oslo"[..], b"America/New_York", b"Etc/UTC", b"WET"] {
        same_starts(&all, id, &mut seen);
    }
    assert_eq!(seen, BTreeSet::from([0, 2, 3, 4, 5, 6, 7, 8, 9, 10, 11, 12, 15]));
}

#[test]
fn halving() {
    let mut prng = Prng::new(18);
    for round in 0..20_000 {
        let most = if round % 100 == 0 { 5_000 } else { 40 };
        let mut table: Vec<i64> = (0..prng.below(most)).map(|_| prng.range(-100, 100)).collect();
        if !prng.one_in(3) {
            table.sort_unstable();
        }
        for instant in [i64::MIN, -101, prng.range(-100, 100), i64::MAX] {
            let expected = second_reader::find_start(&table, instant).map_err(pair);
            let given = peer::find_start(&table, instant).map_err(peer_pair);
            let expected = expected.map(|found| (found.position, found.looks as usize));
            assert_eq!(given.map(|found| (found.position, found.looks)), expected, "{table:?} at {instant}");
        }
    }
}

/// With room for all, for one byte less, for none and for more.
fn same_closed(file: &[u8], seen: &mut BTreeSet<u8>) {
    let length = second_reader::close_pool::closed(file).map_or(0, |closed| closed.len());
    for room in [length, length.saturating_sub(1), 0, length + 3] {
        let (mut wanted, mut out) = (vec![0xaa; room], vec![0xaa; room]);
        let expected = second_reader::close_pool(file, &mut wanted).map_err(pair);
        note(seen, &expected);
        assert_eq!(peer::close_pool(file, &mut out).map_err(peer_pair), expected, "{:02x?}", shown(file));
        assert!(out == wanted, "{:02x?} closed with room for {room}", shown(file));
    }
}

#[test]
fn closed_files() {
    let mut seen = BTreeSet::new();
    for seed in 0..4000 {
        let mut prng = Prng::of_case(19, seed);
        let (mut content, good, bad) = generated(seed, &mut prng);
        same_closed(&good, &mut seen);
        same_closed(&bad, &mut seen);
        content.others.clear();
        let (good, bad) = good_and_bad(&content, &mut prng);
        same_closed(&good, &mut seen);
        same_closed(&bad, &mut seen);
    }
    for file in [
        "V 0009 040141014201430142 0104 00013002 0104 01013002 0303 010302",
        "V P",
        "V 000100",
        "V P 0103 020130 0202 0141",
        "V 00 878000 03014101420143 0184 00 00013000 02 818000 00",
        "V P 070a 01000004020102010201",
        "V P A 0400",
        "V P A 0400 00",
        "V P 030100 0500 0900",
        "V P A 0604 01c2c627",
        "V",
        "",
    ] {
        same_closed(&bytes_of(file), &mut seen);
    }
    for name in ["all.nzd", "europe.nzd"] {
        same_closed(&realistic(name), &mut seen);
    }
    assert_eq!(seen, BTreeSet::from([0, 2, 3, 4, 5, 6, 7, 8, 9, 10, 11, 13, 15, 19, 20, 22]));
}

/// Many strings, so that numbers of one byte and of two change places and fields their lengths.
#[test]
fn closed_files_with_many_strings() {
    let mut seen = BTreeSet::new();
    for seed in 0..60 {
        let mut prng = Prng::of_case(20, seed);
        let mut content = random_content(&mut prng, Size::Small);
        content.others.clear();
        let count = content.pool.len();
        content.pool.extend((0..8192 - count).map(|number| format!("String_{number}").into_bytes()));
        let aliases = content.aliases.get_or_insert_default();
        aliases.clear();
        for key in count..count + 1 + prng.below(600) {
            let most = *prng.pick(&[8192, 200, 10]);
            aliases.push((key, prng.below(most)));
        }
        same_closed(&plan(&content, &mut Forms::Any(&mut prng)).bytes(), &mut seen);
    }
    assert_eq!(seen, BTreeSet::from([0, 15]));
}

/// Eleven zones of 127 bytes that mention string 0 once each, and 128 strings that are mentioned more often: each zone gets a byte
/// longer, and so does its size. With so many more mentions of string 1 in pairs.
fn growing(more: usize) -> Vec<u8> {
    let interval = |zone: usize, at: i64| {
        let start = if at == 0 { Transition::StartOfTime } else { Transition::Finite(at * TICKS_PER_HOUR + 1) };
        // Offsets of four bytes and of two, up to the length wanted.
        let wall = if at < 3 { 1 } else { i32::from(at == 3) * 60_000 };
        Interval { start, name: if at == 0 { 0 } else { zone }, wall, savings: 0 }
    };
    let zone = |id| {
        let intervals = (0..10).map(|at| interval(id, at)).collect();
        Zone { id, rest: Rest::Listed { intervals, end: Transition::EndOfTime, tail: None } }
    };
    let pairs = (0..12).flat_map(|_| (1..129).step_by(2).map(|number| (number, number + 1)));
    let countries = pairs.chain((0..more).map(|_| (1, 1))).collect();
    let content = FileContent {
        pool: (0..129).map(|number| format!("{number:03}").into_bytes()).collect(),
        zones: (1..=11).map(zone).collect(),
        locations_1970: Some(vec![Location { latitude: 0, longitude: 0, countries, zone: 1, comment: 1 }]),
        ..FileContent::default()
    };
    plan(&content, &mut Forms::Preferred).bytes()
}

#[test]
fn closed_files_that_grow() {
    let mut seen = BTreeSet::new();
    let file = growing(0);
    same_closed(&file, &mut seen);
    assert_eq!(peer::close_pool(&file, &mut vec![0; file.len() + 10]), Ok(file.len() + 10));
    // Up to the largest place of a source, where the closed file would pass it.
    for shorter in [0, 9] {
        let long = growing((4_194_304 - file.len() - 6) / 2 - shorter);
        assert!(second_reader::check(&long) == (0, 0) && long.len() > 4_194_270, "{}", long.len());
        same_closed(&long, &mut seen);
    }
    assert_eq!(seen, BTreeSet::from([0, 4, 15]));
}
