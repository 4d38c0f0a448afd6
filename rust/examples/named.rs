//! Asks a file by a zone's ID or an alias at an instant: `named FILE NAME TICKS part|all 1|2`, the last being the edition. Writes a line as the
//! program zone_query does: 0, wall offset, savings and standard offset in milliseconds, and name; or a refusal's number and place. Exit code: 0 answered, 1 refused, 2 wrong use.

use std::io::Write;
use std::os::unix::ffi::OsStrExt;
use std::process::ExitCode;

fn main() -> ExitCode {
    let words: Vec<_> = std::env::args_os().skip(1).collect();
    let [file, name, ticks, mark, edition] = &words[..] else {
        return wrong("usage: named FILE NAME TICKS part|all 1|2");
    };
    let Some(ticks) = ticks.to_str().and_then(|ticks| ticks.parse().ok()) else { return wrong("TICKS is a count") };
    let mark = match mark.to_str() {
        Some("part") => nzd::Mark::MoreMayCome,
        Some("all") => nzd::Mark::ThisIsAll,
        _ => return wrong("part or all"),
    };
    let edition = match edition.to_str() {
        Some("1") => nzd::Edition::One,
        Some("2") => nzd::Edition::Two,
        _ => return wrong("edition 1 or 2"),
    };
    let bytes = match std::fs::read(file) {
        Ok(bytes) => bytes,
        Err(fault) => return wrong(&fault.to_string()),
    };
    let (line, code) = match nzd::ask_named(&bytes, name.as_bytes(), ticks, mark, edition) {
        Ok(answer) => {
            let numbers = format!("0 {} {} {} ", answer.wall_offset_ms, answer.savings_ms, answer.standard_offset_ms);
            ([numbers.as_bytes(), answer.name, b"\n"].concat(), 0)
        }
        Err(error) => (format!("{} {}\n", error.number.value(), error.place).into_bytes(), 1),
    };
    match std::io::stdout().write_all(&line) {
        Ok(()) => ExitCode::from(code),
        Err(fault) => wrong(&fault.to_string()),
    }
}

fn wrong(what: &str) -> ExitCode {
    eprintln!("named: {what}");
    ExitCode::from(2)
}
