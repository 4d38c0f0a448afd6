//! Reads a zone file in pieces from standard input and answers as soon as the bytes that came allow it:
//! `cargo run --example receive -- ZONE [SECONDS] < FILE`, where SECONDS is a Unix time; without it the instant is now.

use nzd::{Edition, Mark, Number, Receiver};
use std::error::Error;
use std::io::Read;
use std::process::ExitCode;
use std::time::SystemTime;

/// No field ends behind this place.
const LARGEST: usize = 4_194_304;
/// What one packet may bring.
const PIECE: usize = 1460;

fn main() -> ExitCode {
    match run() {
        Ok(()) => ExitCode::SUCCESS,
        Err(error) => {
            eprintln!("receive: {error}");
            ExitCode::FAILURE
        }
    }
}

fn run() -> Result<(), Box<dyn Error>> {
    let arguments: Vec<String> = std::env::args().skip(1).collect();
    let (zone, ticks) = match arguments.as_slice() {
        [zone] => (zone, nzd::ticks_of_system_time(SystemTime::now())),
        [zone, seconds] => (zone, nzd::ticks_of_unix_seconds(seconds.parse()?)),
        _ => return Err("takes ZONE [SECONDS], and the file on standard input".into()),
    };
    let mut buffer = vec![0; LARGEST];
    let mut receiver = Receiver::new(&mut buffer);
    let (mut input, mut piece) = (std::io::stdin().lock(), [0; PIECE]);
    loop {
        let count = input.read(&mut piece)?;
        let mark = if count > 0 { Mark::MoreMayCome } else { Mark::ThisIsAll };
        receiver.add(&piece[..count])?;
        match receiver.ask(zone, ticks, mark, Edition::Two) {
            Err(error) if error.number == Number::NotYet => {}
            Err(error) => return Err(format!("{error}, after {} bytes", receiver.held().len()).into()),
            Ok(answer) => {
                println!("{} ms, {}, after {} bytes", answer.wall_offset_ms, answer.name_str(), receiver.held().len());
                return Ok(());
            }
        }
    }
}
