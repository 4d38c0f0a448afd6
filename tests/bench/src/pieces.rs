//! The second table: the realistic files in pieces.

use crate::files::{content, realistic_file};
use crate::measure::measure;
use crate::work::{asked_after_each, from_the_front, Work};
use crate::{agree, us, Only, LISTED};

/// How many bytes a piece of a file has: one, a radio frame's, a packet's.
const PIECES: [usize; 3] = [1, 64, 1460];

/// The realistic files in pieces, by a receiver: beside the peer's, beside a walk from the front after each piece, and with a
/// question after each.
pub fn table(only: &Only) -> Result<(), String> {
    println!("## Bytes in pieces\n");
    println!("Times are for one piece: of a receiver, ours and the peer's, which go on from the first unfinished field; of the peer's walk");
    println!("over the fields from the front after each piece; and of a receiver of ours that is asked for the last zone after each.\n");
    println!(
        "| File | Piece, bytes | Pieces | Ours, µs | Peer, µs | Ratio | From the front, µs | Ours and a question, µs |"
    );
    println!("|---|---:|---:|---:|---:|---:|---:|---:|");
    for name in ["all.nzd", "europe.nzd"] {
        if !only.takes(name, "in pieces") {
            continue;
        }
        let file = realistic_file(name)?;
        let content = content(&file).map_err(|refusal| format!("{name}: {refusal}"))?;
        let last = content.zones.last().map_or(&[][..], |zone| content.id(zone));
        for size in PIECES {
            let work = Work::Receive { size };
            agree(&file, name, "in pieces", &work)?;
            let mut pieces = Vec::from(work.pieces(&file));
            pieces.push(from_the_front(&file, size));
            pieces.push(asked_after_each(&file, size, last, LISTED));
            let count = file.len().div_ceil(size);
            let times: Vec<f64> = measure(&mut pieces).into_iter().map(|time| time / count as f64).collect();
            let [ours, peer, front, asked] = [0, 1, 2, 3].map(|at| us(times[at]));
            println!(
                "| `{name}` | {size} | {count} | {ours} | {peer} | {:.2} | {front} | {asked} |",
                times[0] / times[1]
            );
        }
    }
    println!();
    Ok(())
}
