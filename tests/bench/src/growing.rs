//! The third table: on files of n, 2n, 4n and 8n bytes, how the time grows.

use crate::hostile::{Grown, Rows, GROWING};
use crate::measure::measure;
use crate::tools::Tool;
use crate::work::Work;
use crate::{agree, us, Count, Only, CHECK, LISTED};
use nzd::Edition::{self, One, Two};

/// What is wanted of the time where a file is twice as long.
const WANTED_GROWTH: f64 = 2.2;

pub fn table(only: &Only) -> Result<(), String> {
    let mut above = Count::default();
    println!("## Files made to be slow\n");
    println!("Each is made with n, 2n, 4n and 8n bytes, up to the largest sizes. A cost that grows with the length only takes twice the");
    println!("time where a file is twice as long.\n");
    println!(
        "| Files of n, 2n, 4n, 8n bytes | Work | 8n, bytes | Ours at 8n, µs \
         | t(2n)/t(n) | t(4n)/t(2n) | t(8n)/t(4n) | Peer's largest of these | Ours / peer at 8n |"
    );
    println!("|---|---|---:|---:|---:|---:|---:|---:|---:|");
    for kind in GROWING {
        let mut sizes = [1, 2, 4, 8].map(kind.make);
        for (what, works) in rows(&kind.rows, &mut sizes) {
            if !only.takes(kind.name, what) {
                continue;
            }
            let mut pieces = Vec::new();
            for (grown, work) in sizes.iter().zip(&works) {
                agree(&grown.file, kind.name, what, work)?;
                pieces.extend(work.pieces(&grown.file));
            }
            // Ours and the peer's in turn, from n to 8n.
            let times = measure(&mut pieces);
            let steps = [2, 4, 6].map(|at| times[at] / times[at - 2]);
            for step in steps {
                above.add(step, WANTED_GROWTH);
            }
            // Where the peer's is as large, it is the machine's caches.
            let peer = [3, 5, 7].map(|at| times[at] / times[at - 2]).into_iter().fold(0.0, f64::max);
            let shown = steps.map(|step| format!("{step:.2}")).join(" | ");
            let (length, ours, ratio) = (sizes[3].length, us(times[6]), times[6] / times[7]);
            println!("| {} | {what} | {length} | {ours} | {shown} | {peer:.2} | {ratio:.2} |", kind.name);
        }
    }
    println!("\nOf {} steps {} are above {WANTED_GROWTH:.1}.", above.all, above.above);
    Ok(())
}

/// What is measured on the files of a kind: its name, and the work on each of the four.
type Row = (&'static str, [Work; 4]);

fn rows(kind: &Rows, sizes: &mut [Grown; 4]) -> Vec<Row> {
    let each = |work: fn(&Grown) -> Work| sizes.each_ref().map(work);
    let absent = ("question, absent zone", each(|grown| ask(&grown.absent)));
    let pieces = ("pieces of 64 bytes", each(|_| Work::Receive { size: 64 }));
    let normalize = ("normalize", each(|_| Work::Normalize { room: true }));
    let mut rows = match kind {
        Rows::More => Vec::new(),
        Rows::Refused => vec![absent, pieces, normalize],
        Rows::WellFormed => {
            let mut rows = vec![absent, ("question, last zone", each(|grown| ask(&grown.last)))];
            let named = |grown: &Grown, edition| ask_named(grown.alias.as_ref()?, edition);
            let local = |grown: &Grown| Some(Work::MapLocal { id: grown.last.clone(), local: grown.local? });
            let location = |grown: &Grown| Some(Work::Location { field: 7, number: grown.located? });
            rows.extend(all("local time, last zone", sizes.each_ref().map(local)));
            rows.extend(all("named question, alias", sizes.each_ref().map(|grown| named(grown, Two))));
            rows.extend(all("named question, alias, edition 1", sizes.each_ref().map(|grown| named(grown, One))));
            if sizes.iter().all(|grown| grown.alias.is_some()) {
                rows.extend(all(
                    "named question, absent name",
                    sizes.each_ref().map(|grown| ask_named(&grown.absent, Two)),
                ));
            }
            rows.extend(all("location, last of field 7", sizes.each_ref().map(location)));
            rows.push((CHECK, each(|_| Work::Normalize { room: false })));
            rows.extend([normalize, pieces, ("close up the pool", each(|_| Work::Tool(Tool::ClosePool)))]);
            rows
        }
    };
    let [one, two, four, eight] = sizes.each_mut().map(|grown| std::mem::take(&mut grown.more));
    for ((((what, one), (_, two)), (_, four)), (_, eight)) in one.into_iter().zip(two).zip(four).zip(eight) {
        rows.push((what, [one, two, four, eight]));
    }
    rows
}

fn ask(id: &[u8]) -> Work {
    Work::Ask { id: id.to_vec(), ticks: LISTED, edition: Two }
}

fn ask_named(name: &[u8], edition: Edition) -> Option<Work> {
    Some(Work::AskNamed { name: name.to_vec(), ticks: LISTED, edition })
}

/// A row where all four sizes have the work.
fn all(what: &'static str, works: [Option<Work>; 4]) -> Option<Row> {
    let [one, two, four, eight] = works;
    Some((what, [one?, two?, four?, eight?]))
}
