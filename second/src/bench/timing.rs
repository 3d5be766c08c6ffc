//! How the benches time a call.

use std::hint::black_box;
use std::time::{Duration, Instant};

/// The best of so many rounds counts.
const ROUNDS: usize = 30;
const SLICE: Duration = Duration::from_millis(10);
/// Calls between two looks at the clock, so that the looks cost next to nothing.
const BATCH: u32 = 50;

/// The mean time of a call, in nanoseconds, over one slice of time.
pub fn time<T>(mut call: impl FnMut() -> T) -> f64 {
    let start = Instant::now();
    let mut calls = 0.0;
    loop {
        for _ in 0..BATCH {
            black_box(call());
        }
        calls += f64::from(BATCH);
        let elapsed = start.elapsed();
        if elapsed >= SLICE {
            return elapsed.as_nanos() as f64 / calls;
        }
    }
}

/// The best time, in nanoseconds, for each row and, within it, each column. In
/// each round every cell has one slice of time, so that all see the same machine.
pub fn best_times(
    rows: usize,
    columns: usize,
    mut time: impl FnMut(usize, usize) -> f64,
) -> Vec<Vec<f64>> {
    let mut best = vec![vec![f64::INFINITY; columns]; rows];
    for _ in 0..ROUNDS {
        for (row, best) in best.iter_mut().enumerate() {
            for (column, best) in best.iter_mut().enumerate() {
                *best = best.min(time(row, column));
            }
        }
    }
    best
}

/// A cell of a table with so many digits behind the point; a dash for none.
pub fn cell(number: Option<f64>, digits: usize) -> String {
    number.map_or("-".to_string(), |number| format!("{number:.digits$}"))
}
