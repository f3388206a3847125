// How the benchmarks of runs and of line ends take times: in rounds, in which the sides take turns. Of all rounds the
// median counts.
use std::hint::black_box;
use std::time::Instant;

pub const ROUNDS: usize = 101;

// The mean time of a call, in nanoseconds.
pub fn time<T>(turns: usize, mut call: impl FnMut() -> T) -> f64 {
    let start = Instant::now();
    for _ in 0..turns {
        black_box(call());
    }
    start.elapsed().as_nanos() as f64 / turns as f64
}

pub fn median(mut times: Vec<f64>) -> f64 {
    times.sort_by(f64::total_cmp);
    times[times.len() / 2]
}
