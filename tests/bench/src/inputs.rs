//! What the tools are measured on: a later release of a file, a file with another order of strings, and traces.

use second_reader::generate::{each_mention, FileContent, Prng, Record, Trace};
use second_reader::zone::{Rest, Zone};

const HALF_HOUR_MS: i32 = 1_800_000;
const HOUR_MS: i32 = 3_600_000;
const DAY_MS: i32 = 86_400_000;

/// The same content with its strings in the reverse order.
pub fn reversed_pool(content: &FileContent) -> FileContent {
    let mut reversed = content.clone();
    reversed.pool.reverse();
    let count = reversed.pool.len();
    each_mention(&mut reversed, |number| *number = count - 1 - *number);
    reversed
}

/// A later release: every tenth zone has half an hour more of savings in the middle of its list and another name at its end, one
/// zone of those with a tail has another rule, and the strings stand in another order.
pub fn later_release(content: &FileContent) -> FileContent {
    let mut later = content.clone();
    let new_name = later.pool.len();
    later.pool.push(b"NEW".to_vec());
    for zone in later.zones.iter_mut().step_by(10) {
        match &mut zone.rest {
            Rest::Fixed { name, .. } => *name = Some(new_name),
            Rest::Listed { intervals, .. } => {
                let middle = intervals.len() / 2;
                intervals[middle].wall += HALF_HOUR_MS;
                intervals[middle].savings += HALF_HOUR_MS;
                intervals.last_mut().into_iter().for_each(|last| last.name = new_name);
            }
        }
    }
    let tails = later.zones.iter_mut().filter_map(|zone| match &mut zone.rest {
        Rest::Listed { tail, .. } => tail.as_mut(),
        Rest::Fixed { .. } => None,
    });
    if let Some(tail) = tails.last() {
        tail.standard_rule.time = (tail.standard_rule.time + HOUR_MS) % DAY_MS;
    }
    reversed_pool(&later)
}

/// Ten thousand instants in no order, each just behind an entry of a table.
pub fn instants(table: &[i64]) -> Vec<i64> {
    let mut prng = Prng::new(0);
    (0..10_000).map(|_| prng.pick(table).saturating_add(1)).collect()
}

/// A trace of so many records, of these zones in turn, from an instant on to before another: all that it shows is right.
pub fn trace(content: &FileContent, zones: &[&Zone], count: usize, first: i64, last: i64) -> Vec<u8> {
    let mut trace = Trace::default();
    let mut starts = Vec::new();
    for zone in zones {
        starts.push(trace.names.len() as u32);
        trace.names.extend(content.id(zone));
    }
    let step = (last - first) / count as i64;
    for number in 0..count {
        let (zone, start) = (zones[number % zones.len()], starts[number % zones.len()]);
        let instant = first + number as i64 * step;
        let shown = zone.at(instant).interval.wall;
        trace.records.push(Record { instant, start, length: content.id(zone).len() as u32, shown });
    }
    trace.bytes(&mut Prng::new(0))
}
