//! Generated files, from a seed: well-formed ones of varied shape, damaged ones, and question lines for both.

pub mod content;
pub mod damage;
pub mod dictionary;
pub mod growing;
pub mod plan;
pub mod prng;
pub mod questions;
pub mod trace;

pub use content::{changed_content, each_mention, random_content, random_tail, FileContent, Size};
pub use damage::{damaged, Damage};
pub use dictionary::{damaged_dictionary, dictionary, random_entries, Entries};
pub use growing::growing;
pub use plan::{plan, FilePlan, Forms};
pub use prng::Prng;
pub use questions::{instants, local_times, names, question_lines};
pub use trace::{damaged_trace, Record, Trace};

use crate::lines;

/// A file with question lines and the program's output for them.
#[derive(Clone, Debug, PartialEq, Eq)]
pub struct Case {
    /// The file.
    pub file: Vec<u8>,
    /// Question lines, as on standard input.
    pub questions: Vec<u8>,
    /// What the program writes.
    pub expected: Vec<u8>,
}

/// Case `number` (from 1) of `seed`: odd ones are well formed, even ones damaged.
pub fn case(seed: u64, number: u64) -> Case {
    let mut prng = Prng::of_case(seed, number);
    let content = random_content(&mut prng, Size::Any);
    let whole = plan(&content, &mut Forms::Any(&mut prng));
    let file = if number % 2 == 1 {
        whole.bytes()
    } else {
        let kind = *prng.pick(&Damage::ALL);
        damaged(&whole, kind, &mut prng)
    };
    let questions = question_lines(&content, &mut prng);
    let expected = lines(&file, &questions);
    Case { file, questions, expected }
}
