//! Times of work, and their median.

use std::time::Instant;

pub const ROUNDS: usize = 99;

pub fn median(mut times: Vec<f64>) -> f64 {
    times.sort_by(f64::total_cmp);
    times[times.len() / 2]
}

/// Seconds that the work takes.
pub fn time(work: impl FnOnce()) -> f64 {
    let start = Instant::now();
    work();
    start.elapsed().as_secs_f64()
}

/// Microseconds for one of so many repetitions.
pub fn each(repeat: usize, work: &mut dyn FnMut()) -> f64 {
    time(|| (0..repeat).for_each(|_| work())) / repeat as f64 * 1e6
}

/// The heading of rows of times, behind a line that says what they are.
pub fn print_head(what: &str) {
    println!("{what}");
    println!("{:<40} {:>9} {:>9} {:>7}", "work", "circmon", "reference", "ratio");
}

/// The microseconds of the proved monitor and of the second implementation, and their ratio.
pub fn print_row(work: &str, ours: f64, theirs: f64) {
    println!("{work:<40} {ours:>9.2} {theirs:>9.2} {:>7.2}", theirs / ours);
}
