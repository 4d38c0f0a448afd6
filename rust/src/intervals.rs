//! The intervals of a zone, one after the other.

use crate::{ask, Answer, Bound, Edition, Error, Mark};

/// The intervals of a zone that are still to come.
#[derive(Clone, Debug)]
pub struct Intervals<'a, I> {
    file: &'a [u8],
    id: I,
    mark: Mark,
    edition: Edition,
    next: Option<i64>,
}

impl<'a, I: AsRef<[u8]>> Iterator for Intervals<'a, I> {
    type Item = Result<Answer<'a>, Error>;

    /// Asks again at the end of the interval before. A question that is refused gives its error once.
    fn next(&mut self) -> Option<Self::Item> {
        let ticks = self.next.take()?;
        let answer = ask(self.file, &self.id, ticks, self.mark, self.edition);
        if let Ok(Answer { end: Bound::At(end), .. }) = answer {
            self.next = Some(end);
        }
        Some(answer)
    }
}

/// Once there is no more there never is.
impl<I: AsRef<[u8]>> core::iter::FusedIterator for Intervals<'_, I> {}

/// The intervals of the zone `id` from the one that holds the instant `ticks` to the last, which ends with time: from
/// [`FIRST_INSTANT`](crate::FIRST_INSTANT) on, all that hold an instant.
///
/// Each starts where the one before ends, every instant from `ticks` on is in exactly one of them, and [`ask`] gives the
/// same answer at every instant of one. So what is shown from such an interval need not be asked for again before its
/// end. Neighbours may have the same offset and name: an end need not be a change. Each interval is a question of its own,
/// and a zone with a tail has two for every year up to 9999.
///
/// ```
/// use nzd::{Bound, Edition, Mark};
///
/// // A zone that goes from +01:00 to +00:00 at 00:00Z, 100,000,000 minutes after 1800.
/// let file = b"\0\0\0\0\x00\x03\x01\x01A\x01\x10\0\x02\x02\0\0\x32\x32\x80\xc2\xd7\x2f\0\x30\x30\x01\0";
/// let change = 6_353_376_000_000_000;
/// let from = |ticks| nzd::intervals(file, "A", ticks, Mark::ThisIsAll, Edition::Two);
/// let all: Vec<_> = from(nzd::FIRST_INSTANT).collect::<Result<_, _>>()?;
/// assert_eq!(all.len(), 2);
/// assert_eq!((all[0].wall_offset_ms, all[0].start, all[0].end), (3_600_000, Bound::StartOfTime, Bound::At(change)));
/// assert_eq!((all[1].wall_offset_ms, all[1].start, all[1].end), (0, Bound::At(change), Bound::EndOfTime));
///
/// assert_eq!(from(change).next(), Some(Ok(all[1])));
/// # Ok::<(), nzd::Error>(())
/// ```
pub fn intervals<I: AsRef<[u8]>>(file: &[u8], id: I, ticks: i64, mark: Mark, edition: Edition) -> Intervals<'_, I> {
    Intervals { file, id, mark, edition, next: Some(ticks) }
}
