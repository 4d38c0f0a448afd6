//! Shows where a zone is: `cargo run --example where -- FILE ZONE`.
//!
//! A line for each location that names the zone, those of field 6 first: degrees north and east, the codes and names of its countries, and the
//! comment. Exit code: 0 where there is one, 1 where there is none or the file is refused, 2 for anything else.

use nzd::{Error, Location, LocationField};
use std::io::Write;
use std::process::ExitCode;

fn main() -> ExitCode {
    let arguments: Vec<String> = std::env::args().skip(1).collect();
    let [path, zone] = arguments.as_slice() else { return wrong("takes FILE ZONE") };
    let file = match std::fs::read(path) {
        Ok(file) => file,
        Err(error) => return wrong(&format!("{path}: {error}")),
    };
    let (text, code) = match answer(&file, zone) {
        Ok(text) if text.is_empty() => (format!("no location names {zone}\n"), ExitCode::FAILURE),
        Ok(text) => (text, ExitCode::SUCCESS),
        Err(Error { number, place }) => {
            (format!("{} {place}: {}\n", number.value(), number.meaning()), ExitCode::FAILURE)
        }
    };
    match std::io::stdout().write_all(text.as_bytes()) {
        Ok(()) => code,
        Err(error) => wrong(&format!("the output failed: {error}")),
    }
}

fn wrong(message: &str) -> ExitCode {
    eprintln!("where: {message}");
    ExitCode::from(2)
}

fn answer(file: &[u8], zone: &str) -> Result<String, Error> {
    let mut text = String::new();
    for (name, field) in [("zone.tab", LocationField::Zone), ("zone1970.tab", LocationField::Zone1970)] {
        for location in nzd::locations(file, field) {
            let location = location?;
            if location.zone == zone {
                text += &line(name, location);
            }
        }
    }
    Ok(text)
}

fn line(name: &str, location: Location) -> String {
    let countries: Vec<String> =
        location.countries.map(|country| format!("{} {}", country.code, country.name)).collect();
    let comment = if location.comment.is_empty() { String::new() } else { format!("; {}", location.comment) };
    format!("{name}: {} {}: {}{comment}\n", location.pin.latitude, location.pin.longitude, countries.join(", "))
}
