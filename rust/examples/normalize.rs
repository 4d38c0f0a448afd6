//! Writes a zone file's preferred form: `cargo run --example normalize -- FILE PREFERRED`.

use std::error::Error;
use std::process::ExitCode;

fn main() -> ExitCode {
    match run() {
        Ok(()) => ExitCode::SUCCESS,
        Err(error) => {
            eprintln!("normalize: {error}");
            ExitCode::FAILURE
        }
    }
}

fn run() -> Result<(), Box<dyn Error>> {
    let arguments: Vec<String> = std::env::args().skip(1).collect();
    let [from, to] = arguments.as_slice() else { return Err("takes FILE PREFERRED".into()) };
    let file = std::fs::read(from)?;
    let mut out = vec![0; file.len()];
    let length = nzd::normalize(&file, &mut out)?;
    std::fs::write(to, &out[..length])?;
    println!("{} bytes, preferred {length}", file.len());
    Ok(())
}
