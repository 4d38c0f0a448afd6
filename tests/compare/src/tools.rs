//! Difference, replay, tables of starts and closing up the pool on generated files, well formed and damaged.

use crate::cases::padded;
use crate::closing;
use crate::differences::{compare, windows};
use crate::questions::{other_ids, Question};
use crate::starts::{find, table};
use crate::tally::{Difference, Tally};
use crate::traces;
use second_reader::generate::{changed_content, damaged, plan, Damage, FileContent, Forms, Prng, Trace};

/// How many questions a closed file is asked.
const MOST_QUESTIONS: usize = 30;

/// A file of a content, damaged ones of it, and what they are asked.
pub struct Round<'a> {
    pub content: &'a FileContent,
    /// The well-formed one first.
    pub files: &'a [Vec<u8>],
    pub asked: &'a [Question],
    pub locals: &'a [Question],
    /// Whether all of time is compared where it takes long.
    pub whole: bool,
}

/// All of them.
pub fn all(tally: &mut Tally, round: &Round, prng: &mut Prng) -> Result<(), Difference> {
    differing(tally, round, prng)?;
    for file in round.files {
        starting(tally, round, file, prng)?;
        let trace = Trace::random(round.content, file, prng);
        traces::all(tally, file, &trace, prng)?;
        closing::close(tally, file)?;
    }
    closed(tally, round, prng)
}

/// A file beside another release of it, in both orders, and beside the damaged ones.
fn differing(tally: &mut Tally, round: &Round, prng: &mut Prng) -> Result<(), Difference> {
    let content = round.content;
    let changed = changed_content(content, prng);
    let other = plan(&changed, &mut Forms::Any(prng)).bytes();
    let good = &round.files[0];
    for (one, two) in content.zones.iter().zip(&changed.zones) {
        let id = content.id(one);
        let all = windows([one, two], round.whole, prng);
        for &window in &all {
            compare(tally, [good, &other], id, window)?;
        }
        for file in round.files {
            let files = *prng.pick(&[[&other, file], [file, good]]);
            compare(tally, files.map(Vec::as_slice), id, *prng.pick(&all))?;
        }
    }
    let ids: Vec<&[u8]> = content.zones.iter().map(|zone| content.id(zone)).collect();
    for id in other_ids(&ids, prng) {
        let file = prng.pick(round.files);
        compare(tally, [&other, file], &id, (0, 1))?;
    }
    Ok(())
}

/// The table of every zone, and of what is none; and instants in it.
fn starting(tally: &mut Tally, round: &Round, file: &[u8], prng: &mut Prng) -> Result<(), Difference> {
    let content = round.content;
    let ids: Vec<&[u8]> = content.zones.iter().map(|zone| content.id(zone)).collect();
    for id in &ids {
        let starts = table(tally, file, id)?;
        for _ in 0..6 {
            find(tally, &starts, prng.pick(round.asked).1)?;
        }
    }
    for id in other_ids(&ids, prng) {
        table(tally, file, &id)?;
    }
    Ok(())
}

/// The same content without fields that aren't read, and so one that can be closed: its questions; the same file with sizes of any length;
/// and a damaged one.
fn closed(tally: &mut Tally, round: &Round, prng: &mut Prng) -> Result<(), Difference> {
    let content = FileContent { others: Vec::new(), ..round.content.clone() };
    let whole = plan(&content, &mut Forms::Any(prng));
    let file = whole.bytes();
    let some = |from: &[Question], prng: &mut Prng| -> Vec<Question> {
        (0..MOST_QUESTIONS.min(from.len())).map(|_| prng.pick(from).clone()).collect()
    };
    let (asked, locals) = (some(round.asked, prng), some(round.locals, prng));
    closing::stays(tally, &file, &asked, &locals)?;
    if let Some(long) = padded(&file, || prng.below(6)) {
        if closing::close(tally, &long)? != closing::close(tally, &file)? {
            return Err(Difference::new("a padded size changes the closed file", &long));
        }
    }
    let kind = *prng.pick(&Damage::ALL);
    closing::close(tally, &damaged(&whole, kind, prng))?;
    Ok(())
}
