//! Interleaved timing.

use std::hint::black_box;
use std::time::{Duration, Instant};

use crate::Case;

/// A sample lasts at least this long, so that neither the clock's grain nor the looks at the waiting show.
const SAMPLE: Duration = Duration::from_millis(3);

/// Trials of a number of repeats, of which the shortest counts.
const TRIALS: usize = 3;

/// How long this thread has waited for a processor so far, as Linux counts it; nothing where it is not told.
fn waited() -> Duration {
    let told = std::fs::read_to_string("/proc/thread-self/schedstat").unwrap_or_default();
    let nanoseconds = told.split_whitespace().nth(1).and_then(|word| word.parse().ok());
    Duration::from_nanos(nanoseconds.unwrap_or(0))
}

/// The time of a sample without what it waited for a processor. On a machine that does other work too, long calls
/// are interrupted and short ones are not, so by the clock alone the slower of two would seem slower still.
///
/// The clock is read first and last. So a wait is taken off only if the clock has seen it, and a sample may come out
/// too long by the two looks at the waiting, but never too short: the best of many would pick just those.
fn timed(case: &mut Case, repeats: u32) -> Duration {
    let start = Instant::now();
    let before = waited();
    for _ in 0..repeats {
        black_box((case.run)());
    }
    let after = waited();
    let elapsed = start.elapsed();
    elapsed.checked_sub(after - before).expect("no one waits longer than the time that passes")
}

/// How often a case is run in one sample.
fn repeats_for(case: &mut Case) -> u32 {
    let mut repeats = 1;
    while (0..TRIALS).map(|_| timed(case, repeats)).min() < Some(SAMPLE) {
        repeats *= 2;
    }
    repeats
}

/// Nanoseconds of one run of each case: the best of `rounds` samples. All cases are warmed by the search for the
/// number of repeats, and the samples are then taken in turn.
pub fn best_of(rounds: usize, cases: &mut [Case]) -> Vec<f64> {
    let repeats: Vec<u32> = cases.iter_mut().map(repeats_for).collect();
    let mut best = vec![f64::INFINITY; cases.len()];
    for _ in 0..rounds {
        for ((case, &repeats), best) in cases.iter_mut().zip(&repeats).zip(&mut best) {
            *best = best.min(timed(case, repeats).as_nanos() as f64 / f64::from(repeats));
        }
    }
    best
}
