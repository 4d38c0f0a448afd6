//! Asks a zone file for the offset of a zone at an instant: `cargo run --example ask -- FILE ZONE [SECONDS]`, where SECONDS
//! is a Unix time; without it the instant is now.

use std::error::Error;
use std::process::ExitCode;
use std::time::SystemTime;

fn main() -> ExitCode {
    match run() {
        Ok(()) => ExitCode::SUCCESS,
        Err(error) => {
            eprintln!("ask: {error}");
            ExitCode::FAILURE
        }
    }
}

fn run() -> Result<(), Box<dyn Error>> {
    let arguments: Vec<String> = std::env::args().skip(1).collect();
    let (file, zone, ticks) = match arguments.as_slice() {
        [file, zone] => (file, zone, nzd::ticks_of_system_time(SystemTime::now())),
        [file, zone, seconds] => (file, zone, nzd::ticks_of_unix_seconds(seconds.parse()?)),
        _ => return Err("takes FILE ZONE [SECONDS]".into()),
    };
    let file = std::fs::read(file)?;
    let answer = nzd::ask(&file, zone, ticks, nzd::Mark::ThisIsAll, nzd::Edition::Two)?;
    println!("{} ms, {}", answer.wall_offset_ms, answer.name_str());
    Ok(())
}
