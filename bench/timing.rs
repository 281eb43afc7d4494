//! How fast work on so many bytes is.

use std::time::Instant;

pub const RUNS: usize = 25;

/// MB/s, the best of RUNS runs of about 2 MB each.
pub fn best(bytes: usize, mut work: impl FnMut()) -> f64 {
    let rounds = 1 + 2_000_000 / bytes.max(1);
    let mut best = f64::MAX;
    for _ in 0..RUNS {
        let begin = Instant::now();
        for _ in 0..rounds {
            work();
        }
        best = best.min(begin.elapsed().as_secs_f64() / rounds as f64);
    }
    bytes as f64 / best / 1e6
}
