//! The command line of the second reader.

mod cases;
mod commands;

use std::ffi::OsString;
use std::io::Write;
use std::process::ExitCode;

const USAGE: &str = "\
usage: second_reader COMMAND ...

  check FILE                           check a whole file: `0 0`, or number and place
  ask FILE ZONE TICKS [part|all [1|2]] `0 WALL SAVINGS STANDARD START END NAME`; unmarked is part, the edition else 2
  named FILE NAME TICKS part|all [1|2] the same for a zone ID or an alias
  named-old FILE DICTIONARY NAME TICKS [1|2]  the same over a dictionary of the older edition, as all there is
  local FILE ZONE LOCAL                instants of a local time: `0 COUNT EARLIEST LATEST`, or number and place
  location FILE 6|7 NUMBER             `0 LATITUDE LONGITUDE ZONE COMMENT COUNTRIES [NAME CODE]...`, texts as HEX@PLACE
  version FILE                         `0 TEXT`, or number and place
  rewrite FILE OUT                     write the preferred file to OUT: `0 LENGTH`, or number and place
  normalize FILE OUT ROOM              check and rewrite in one, into ROOM bytes: `0 LENGTH`, or number and place
  lines FILE                           question lines on standard input, the program's output
  difference FILE FILE ZONE FIRST LAST ROOM  where two files differ: `0 COUNT [FIRST END]...`, or number and place
  replay FILE TRACE                    `0 RECORD`, `0 none`, or number and place
  starts FILE ZONE ROOM                a zone's interval starts: `0 COUNT START...`, or number and place
  close FILE OUT ROOM                  close up the pool, into ROOM bytes: `0 LENGTH`, or number and place
  receive LENGTH PIECE...              for each piece (hex, `-` or reset) `0 HELD PLACE`, or number and place
  generate SEED COUNT DIR              write files with question lines and expected output into DIR

  code read KIND HEX [PREVIOUS]        one small code: `0 LENGTH VALUE`, or number and place
  code write KIND VALUE [PREVIOUS] ROOM  the same, written into ROOM bytes: `0 LENGTH HEX`
  rule HEX STANDARD OTHER YEAR         a rule's instant in a year: `0 TICKS`
  tail HEX TAIL_START TICKS            `0 WALL SAVINGS standard|daylight START END`
  date YEAR MONTH DAY                  days since 1970-01-01
  find TICKS START...                  a table halved: `0 POSITION LOOKS`

KIND is count, signed, offset, transition or text; only transition has PREVIOUS (none, start, end or ticks).
A transition's VALUE is start, end or ticks, a text's is hex; `-` is no bytes. Offsets are milliseconds.
The older edition's are old-count, old-offset, old-string and old-dictionary, whose VALUE is keys and values in hex.
code, rule, tail, date and find without arguments read the same words from standard input, one case a line.
Exit status: 0 done, 1 refused with a number, 2 misuse or a file that can't be read or written.
";

/// What a command writes to standard output, and whether it was refused.
pub(crate) struct Done {
    pub(crate) output: Vec<u8>,
    /// Words on the refusal, for standard error.
    pub(crate) refused: Option<&'static str>,
}

fn main() -> ExitCode {
    let arguments: Vec<OsString> = std::env::args_os().skip(1).collect();
    match commands::run(&arguments) {
        Ok(done) => {
            if let Err(fault) = std::io::stdout().write_all(&done.output) {
                eprintln!("second_reader: standard output can't be written: {fault}");
                return ExitCode::from(2);
            }
            match done.refused {
                None => ExitCode::SUCCESS,
                Some(words) => {
                    eprintln!("second_reader: refused: {words}");
                    ExitCode::from(1)
                }
            }
        }
        Err(commands::Misuse::Usage) => {
            eprint!("{USAGE}");
            ExitCode::from(2)
        }
        Err(commands::Misuse::Words(words)) => {
            eprintln!("second_reader: {words}");
            ExitCode::from(2)
        }
    }
}
