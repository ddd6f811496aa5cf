//! Two sides timed by turns, and the lines that are printed.

use std::time::{Duration, Instant};

/// Prints the head of a table.
pub fn print_head(what: &str) {
    println!("| {what} | proved | peer | ratio |\n|---|---|---|---|");
}

/// Times two sides by turns and prints a line with their medians and the ratio.
pub fn compare(name: &str, turns: usize, mut proved: impl FnMut(), mut peer: impl FnMut()) {
    let mut times = [Vec::with_capacity(turns), Vec::with_capacity(turns)];
    for _ in 0..turns {
        times[0].push(time(&mut proved));
        times[1].push(time(&mut peer));
    }
    let [proved, peer] = times.map(median);
    println!("| {name} | {} | {} | {:.2} |", micros(proved), micros(peer), proved / peer);
}

fn time(run: &mut impl FnMut()) -> Duration {
    let start = Instant::now();
    run();
    start.elapsed()
}

/// The median in microseconds.
fn median(mut times: Vec<Duration>) -> f64 {
    times.sort_unstable();
    times[times.len() / 2].as_secs_f64() * 1e6
}

fn micros(time: f64) -> String {
    let digits = if time < 10.0 { 2 } else { 0 };
    format!("{time:.digits$} µs")
}
