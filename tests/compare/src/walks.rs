//! The intervals of a zone from an instant on, each asked for at the end of the one before: by the wrapper's iterator and by the second
//! reader's answers.

use crate::questions::{numbers_of, wrapped_numbers, EDITIONS};
use crate::tally::{Difference, Tally};
use crate::whole::pair;
use nzd::Mark;
use second_reader::generate::Prng;
use second_reader::transition::LAST;
use second_reader::Transition;

/// Compares at most so many intervals of a zone under one of the editions, and asks for each once more at an instant between its start and its end, and at its last.
pub fn walk(
    tally: &mut Tally,
    file: &[u8],
    id: &[u8],
    first: i64,
    most: usize,
    prng: &mut Prng,
) -> Result<(), Difference> {
    let (edition, their_edition) = *prng.pick(&EDITIONS);
    let asked = format!("{:?} from {first} on, edition {edition:?}", id.escape_ascii().to_string());
    let mut next = Some(first);
    for ours in nzd::intervals(file, id, first, Mark::ThisIsAll, edition).take(most) {
        let Some(ticks) = next.take() else { return Err(Difference::new(format!("{asked}: one more"), file)) };
        let theirs = second_reader::ask(file, id, ticks, second_reader::Mark::ThisIsAll, their_edition);
        if let Ok(answer) = &theirs {
            let last = if let Transition::Finite(end) = answer.end { end - 1 } else { LAST };
            for between in [prng.range(ticks, last), last] {
                if nzd::ask(file, id, between, Mark::MoreMayCome, edition) != ours {
                    return Err(Difference::new(format!("{asked}: another answer at {between}"), file));
                }
            }
            next = (last < LAST).then_some(last + 1);
        }
        let theirs = theirs.map(|answer| numbers_of(&answer)).map_err(pair);
        tally.same(&format_args!("{asked}, at {ticks}"), file, wrapped_numbers(file, ours), theirs)?;
    }
    match next {
        Some(ticks) if most == usize::MAX => Err(Difference::new(format!("{asked}: none at {ticks}"), file)),
        _ => Ok(()),
    }
}
