//! Files that grow when their pool is closed up (reading 14.33).

use crate::generate::content::FileContent;
use crate::locations::Location;
use crate::transition::{Transition, TICKS_PER_HOUR};
use crate::zone::{Interval, Rest, Zone};

/// The content of `zones` zones that mention string 0 once each, in 127 bytes of data each, over 129 strings of which all
/// others are mentioned more often; and `more` pairs of mentions of string 1.
pub fn growing(zones: usize, more: usize) -> FileContent {
    let pool: Vec<Vec<u8>> = (0..129).map(|number| format!("{number:03}").into_bytes()).collect();
    let zone = |number: usize| {
        let start =
            |at: i64| if at == 0 { Transition::StartOfTime } else { Transition::Finite(at * TICKS_PER_HOUR + 1) };
        let interval = |at: i64| {
            // Nine bytes of offsets more than the shortest, and one.
            let wall = match at {
                0..=2 => 1,
                3 => 60_000,
                _ => 0,
            };
            Interval { start: start(at), name: if at == 0 { 0 } else { number }, wall, savings: 0 }
        };
        let rest = Rest::Listed { intervals: (0..10).map(interval).collect(), end: Transition::EndOfTime, tail: None };
        Zone { id: number, rest }
    };
    let mut countries: Vec<(usize, usize)> = Vec::new();
    for _ in 0..=zones {
        countries.extend((1..129).step_by(2).map(|number| (number, number + 1)));
    }
    countries.extend((0..more).map(|_| (1, 1)));
    let pins = vec![Location { latitude: 0, longitude: 0, countries, zone: 1, comment: 1 }];
    let zones = (1..=zones).map(zone).collect();
    FileContent { pool, zones, locations_1970: Some(pins), ..FileContent::default() }
}
