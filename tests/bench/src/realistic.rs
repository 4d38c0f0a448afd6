//! The first table: on the realistic files, ours against the peer's.

use crate::files::{content, in_ticks, padded, preferred, realistic_file};
use crate::found::Found;
use crate::inputs::{instants, later_release, reversed_pool, trace};
use crate::measure::measure;
use crate::tools::Tool;
use crate::work::{floor, Work};
use crate::{agree, us, Count, Only, CHECK, IN_TAIL, LISTED};
use nzd::Edition::{One, Two};
use nzd::{FIRST_INSTANT, LAST_INSTANT};
use second_reader::generate::{dictionary, Entries, FileContent};
use second_reader::starts::starts_of;
use second_reader::zone::{Rest, Zone};

/// What is wanted of our time against the peer's.
const WANTED_RATIO: f64 = 1.0;

/// 9998-01-01T00:00Z and 9999-01-01T00:00Z.
const YEAR_9998: [i64; 2] = [253_339_228_800 * 10_000_000, 253_370_764_800 * 10_000_000];
/// 1900-01-01T00:00Z and 2100-01-01T00:00Z.
const TWO_CENTURIES: [i64; 2] = [-2_208_988_800 * 10_000_000, 4_102_444_800 * 10_000_000];
/// How many answers a table has, at most: of a zone with a tail those up to the year 2400 or so.
const ROWS: usize = 1000;
/// How many records a trace has.
const RECORDS: usize = 10_000;

pub fn table(only: &Only) -> Result<(), String> {
    let mut above = Count::default();
    println!("## The realistic files\n");
    println!("The first two rows of a file are the floor that memory sets, measured without a reader: a copy of its bytes, and one pass that");
    println!("adds them up.\n");
    println!("| File | Work | Ours, µs | Peer, µs | Ratio |");
    println!("|---|---|---:|---:|---:|");
    for name in ["all.nzd", "europe.nzd"] {
        let file = realistic_file(name)?;
        let content = content(&file).map_err(|refusal| format!("{name}: {refusal}"))?;
        for (what, mut floor) in ["floor: copy of the bytes", "floor: sum of the bytes"].into_iter().zip(floor(&file)) {
            if only.takes(name, what) {
                let time = measure(std::slice::from_mut(&mut floor))[0];
                println!("| `{name}` | {what} | – | {} | – |", us(time));
            }
        }
        let long = in_ticks(&content);
        let wide = padded(&file).map_err(|refusal| format!("{name}: {refusal}"))?;
        let reversed = preferred(&reversed_pool(&content));
        let mut rows = vec![(&file, CHECK.to_string(), Work::Normalize { room: false })];
        rows.extend(questions(&content).into_iter().map(|(what, work)| (&file, what, work)));
        for field in [6, 7] {
            rows.push((&file, format!("location 0 of field {field}"), Work::Location { field, number: 0 }));
            rows.push((&file, format!("all countries of field {field}"), Work::Countries { field }));
        }
        rows.push((&file, "normalize, preferred already".to_string(), Work::Normalize { room: true }));
        rows.push((&long, "normalize, every instant in ticks".to_string(), Work::Normalize { room: true }));
        rows.push((&wide, format!("{CHECK}, every size in five bytes"), Work::Normalize { room: false }));
        let absent = Work::Ask { id: b"No/Such_Zone".to_vec(), ticks: LISTED, edition: Two };
        rows.push((&wide, "question, absent zone, every size in five bytes".to_string(), absent));
        rows.push((&wide, "normalize, every size in five bytes".to_string(), Work::Normalize { room: true }));
        rows.extend(tools(&content).into_iter().map(|(what, tool)| (&file, what, Work::Tool(tool))));
        rows.push((&file, "close up the pool, in order already".to_string(), Work::Tool(Tool::ClosePool)));
        rows.push((&reversed, "close up the pool, in the reverse order".to_string(), Work::Tool(Tool::ClosePool)));
        for (file, what, work) in rows {
            if only.takes(name, &what) {
                above.add(row(name, file, &what, &work)?, WANTED_RATIO);
            }
        }
    }
    println!(
        "\nThe ratio is above {WANTED_RATIO:.1}, so the peer the quicker one, in {} of {} rows.\n",
        above.above, above.all
    );
    Ok(())
}

/// The rows of found zones and tables once more, beside the peer that trusts the bytes.
pub fn trusting_table(only: &Only) -> Result<(), String> {
    println!("## Found zones and tables, beside a reader that trusts the bytes\n");
    println!("In the table above the peer's found zone is a plain value, as the library's is, over bytes that may be others by then, so each");
    println!("question checks the zone's bytes and walks over the pool to the name, and a table has seven numbers a row. Here the peer's found zone keeps");
    println!("an index of the pool and the zone's tail and checks nothing again, and a row of its table has the name itself.\n");
    println!("| File | Work | Ours, µs | Peer, µs | Ratio |");
    println!("|---|---|---:|---:|---:|");
    for name in ["all.nzd", "europe.nzd"] {
        let file = realistic_file(name)?;
        let content = content(&file).map_err(|refusal| format!("{name}: {refusal}"))?;
        for (what, work) in questions(&content) {
            if let Some(work) = work.trusting().filter(|_| only.takes(name, &what)) {
                row(name, &file, &what, &work)?;
            }
        }
    }
    println!();
    Ok(())
}

/// Prints a row, and gives its ratio.
fn row(name: &str, file: &[u8], what: &str, work: &Work) -> Result<f64, String> {
    agree(file, name, what, work)?;
    let times = measure(&mut work.pieces(file));
    let ratio = times[0] / times[1];
    println!("| `{name}` | {what} | {} | {} | {ratio:.2} |", us(times[0]), us(times[1]));
    Ok(ratio)
}

/// First, middle and last zone at a listed instant; of the zones with a tail the same at an instant in it; the first and the last of
/// each found before, and over tables of their answers; a zone that isn't there; all intervals of a zone. Then local times of those asked first.
fn questions(content: &FileContent) -> Vec<(String, Work)> {
    let zones: Vec<&Zone> = content.zones.iter().collect();
    let has_tail = |zone: &&Zone| matches!(&zone.rest, Rest::Listed { tail: Some(_), .. });
    let with_tail: Vec<&Zone> = zones.iter().copied().filter(has_tail).collect();
    let (mut questions, mut found, mut listed) = (Vec::new(), Vec::new(), Vec::new());
    let (mut locals, mut found_locals) = (Vec::new(), Vec::new());
    for (kind, zones, ticks) in [("listed", &zones, LISTED), ("in the tail", &with_tail, IN_TAIL)] {
        let last = zones.len() - 1;
        for (place, number) in [("first", 0), ("middle", last / 2), ("last", last)] {
            let id = content.id(zones[number]).to_vec();
            let which = format!("{place} zone, {kind} (`{}`)", String::from_utf8_lossy(&id));
            questions.push((format!("question, {which}"), Work::Ask { id: id.clone(), ticks, edition: Two }));
            if place != "middle" {
                let work = Work::found(Found::Ask { id: id.clone(), ticks });
                found.push((format!("question of a found zone, {which}"), work));
                let work = Work::found(Found::AskListed { id: id.clone(), rows: ROWS, instants: vec![ticks] });
                listed.push((format!("question over a table, {which}"), work));
                let work = Work::found(Found::MapLocal { id: id.clone(), local: ticks });
                found_locals.push((format!("local time of a found zone, {which}"), work));
            }
            locals.push((format!("local time, {which}"), Work::MapLocal { id, local: ticks }));
        }
    }
    questions.extend(found);
    questions.extend(listed);
    if let Some(zone) = with_tail.last() {
        let id = content.id(zone).to_vec();
        let shown = String::from_utf8_lossy(&id).into_owned();
        let instants = instants(&starts_of(zone));
        let what = format!("10,000 questions over a table, instants in no order (`{shown}`)");
        questions.push((what, Work::found(Found::AskListed { id: id.clone(), rows: ROWS, instants })));
        let what = format!("table of 1,000 answers, last zone with a tail (`{shown}`)");
        questions.push((what, Work::found(Found::List { id, rows: ROWS })));
    }
    let absent = Work::Ask { id: b"No/Such_Zone".to_vec(), ticks: LISTED, edition: Two };
    questions.push(("question, absent zone".to_string(), absent));
    // Under edition 1: the last fixed zone, or the last of all.
    let is_fixed = |zone: &&&Zone| matches!(&zone.rest, Rest::Fixed { .. });
    if let Some(zone) = zones.iter().rev().find(is_fixed).or(zones.last()) {
        let id = content.id(zone).to_vec();
        let what = format!("question, edition 1 (`{}`)", String::from_utf8_lossy(&id));
        questions.push((what, Work::Ask { id, ticks: LISTED, edition: One }));
    }
    // Aliases of the first and of the last zone that has one; the absent name; in a file without aliases the last alone.
    let place = |&(_, target): &(usize, usize)| content.zones.iter().position(|zone| zone.id == target);
    let pairs: Vec<&(usize, usize)> = content.aliases.iter().flatten().filter(|pair| place(pair).is_some()).collect();
    let ends =
        [("first", pairs.iter().min_by_key(|pair| place(pair))), ("last", pairs.iter().max_by_key(|pair| place(pair)))];
    for (which, pair) in ends {
        if let Some((key, _)) = pair {
            let name = content.pool[*key].clone();
            let what = format!("named question, alias of the {which} zone (`{}`)", String::from_utf8_lossy(&name));
            questions.push((what, Work::AskNamed { name, ticks: LISTED, edition: Two }));
        }
    }
    let unnamed = Work::AskNamed { name: b"No/Such_Zone".to_vec(), ticks: LISTED, edition: Two };
    questions.push(("named question, absent name".to_string(), unnamed));
    if let Some(zone) = with_tail.last() {
        let id = content.id(zone).to_vec();
        let what = format!("all intervals, last zone with a tail (`{}`)", String::from_utf8_lossy(&id));
        questions.push((what, Work::Intervals { id }));
    }
    // The file's links and zone IDs as an older dictionary has them, in the order of their bytes and in the reverse order.
    let mut entries: Entries =
        zones.iter().map(|zone| (content.id(zone).to_vec(), content.id(zone).to_vec())).collect();
    let string = |number: usize| content.pool[number].clone();
    entries.extend(content.aliases.iter().flatten().map(|&(key, target)| (string(key), string(target))));
    entries.sort();
    entries.dedup_by(|second, first| second.0 == first.0);
    let older = dictionary(&entries);
    entries.reverse();
    let reversed = dictionary(&entries);
    questions
        .push((format!("older dictionary of {} entries", entries.len()), Work::OldDictionary { older: older.clone() }));
    questions
        .push(("older dictionary, keys in the reverse order".to_string(), Work::OldDictionary { older: reversed }));
    let name = pairs.last().map_or(b"No/Such_Zone".to_vec(), |(key, _)| string(*key));
    let what = format!("named question over an older dictionary (`{}`)", String::from_utf8_lossy(&name));
    questions.push((what, Work::AskNamedOld { older, name, ticks: LISTED }));
    questions.extend(locals);
    questions.extend(found_locals);
    questions
}

/// The difference of all zones to a later release, and of one in a late year; replays; the starts of the longest list, and searches in them.
fn tools(content: &FileContent) -> Vec<(String, Tool)> {
    let zones: Vec<&Zone> = content.zones.iter().collect();
    let shown = |zone: &Zone| String::from_utf8_lossy(content.id(zone)).into_owned();
    let later = preferred(&later_release(content));
    let ids: Vec<Vec<u8>> = zones.iter().map(|zone| content.id(zone).to_vec()).collect();
    let difference = |ids: &[Vec<u8>], [first, last]: [i64; 2]| Tool::Difference {
        other: later.clone(),
        ids: ids.to_vec(),
        first,
        last,
    };
    let mut tools = vec![
        (format!("difference of all {} zones, 1900 to 2100", ids.len()), difference(&ids, TWO_CENTURIES)),
        (
            format!("difference of all {} zones, years 1 to 9999", ids.len()),
            difference(&ids, [FIRST_INSTANT, LAST_INSTANT]),
        ),
    ];
    let has_tail = |zone: &&&Zone| matches!(&zone.rest, Rest::Listed { tail: Some(_), .. });
    if let Some(zone) = zones.iter().rev().find(has_tail) {
        let what = format!("difference, last zone with a tail (`{}`), year 9998", shown(zone));
        tools.push((what, difference(&[content.id(zone).to_vec()], YEAR_9998)));
        let trace = trace(content, &[zone], RECORDS, LISTED, IN_TAIL);
        tools.push((format!("replay, 10,000 records of one zone (`{}`)", shown(zone)), Tool::Replay { trace }));
    }
    let trace = trace(content, &zones, RECORDS, LISTED, IN_TAIL);
    tools.push(("replay, 10,000 records of all zones in turn".to_string(), Tool::Replay { trace }));
    if let Some(zone) = zones.iter().max_by_key(|zone| starts_of(zone).len()) {
        let table = starts_of(zone);
        let what = format!("interval starts, longest list (`{}`, {})", shown(zone), table.len());
        tools.push((what, Tool::Starts { id: content.id(zone).to_vec() }));
        let instants = instants(&table);
        tools.push(("10,000 searches in these starts".to_string(), Tool::Search { table, instants }));
    }
    tools
}
