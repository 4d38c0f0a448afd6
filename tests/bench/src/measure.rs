//! How long pieces of work take, side by side.

use crate::clock::now;

/// Samples of each piece; the least is taken: what else the machine does, and a lower clock, only add to it.
pub const SAMPLES: usize = 31;
/// Samples where one call takes longer than `LONG`: what disturbs it is little beside it.
pub const FEW_SAMPLES: usize = 3;
/// In nanoseconds.
const LONG: u64 = 100_000_000;
/// A sample repeats the work until it takes about this long, in nanoseconds.
const SAMPLE: u64 = 500_000;

/// A piece of work.
pub type Piece<'a> = Box<dyn FnMut() + 'a>;

/// The least time of each piece, in nanoseconds. Samples are taken in turn, so that what else the machine does meets
/// all of them alike.
pub fn measure(pieces: &mut [Piece]) -> Vec<f64> {
    let first: Vec<(u32, u64)> = pieces.iter_mut().map(runs).collect();
    let long = first.iter().any(|&(runs, time)| time / u64::from(runs) > LONG);
    let mut least = vec![f64::INFINITY; pieces.len()];
    for _ in 0..if long { FEW_SAMPLES } else { SAMPLES } {
        for (number, piece) in pieces.iter_mut().enumerate() {
            // Not measured: what the piece before left in the caches is no part of this one.
            piece();
            let runs = first[number].0;
            least[number] = least[number].min(sample(piece, runs) as f64 / f64::from(runs));
        }
    }
    least
}

/// How many runs fill a sample, and how long it took. The runs made to find out warm up what there is to be warmed up.
fn runs(piece: &mut Piece) -> (u32, u64) {
    let mut runs = 1;
    loop {
        let time = sample(piece, runs);
        if time >= SAMPLE {
            return (runs, time);
        }
        runs *= 2;
    }
}

fn sample(piece: &mut Piece, runs: u32) -> u64 {
    let start = now();
    for _ in 0..runs {
        piece();
    }
    now() - start
}
