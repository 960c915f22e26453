//! The library's time against Rust's, same inputs, same run, and its time of checking tables of growing size. Figures,
//! and never a test.

mod documents;
mod literals;
mod tables;

use std::hint::black_box;
use std::time::{Duration, Instant};

/// Least time of one measurement.
const LEAST: Duration = Duration::from_micros(300);

const ROUNDS: usize = 301;

/// A document is printed a thousand times.
const DOCUMENT_ROUNDS: usize = 1_000;

/// With so many rounds of each, or as many as each has of itself.
pub fn run(rounds: Option<usize>) {
    literals::run(rounds.unwrap_or(ROUNDS));
    println!();
    tables::run(rounds.unwrap_or(ROUNDS));
    println!();
    documents::run(rounds.unwrap_or(DOCUMENT_ROUNDS));
}

/// What is timed: a call with an output.
type Call<'a> = &'a mut dyn FnMut(&mut [u8]) -> usize;

/// The median time of one call of each, called in turn.
fn in_turn<const N: usize>(rounds: usize, out: &mut [u8], mut each: [Call<'_>; N]) -> [f64; N] {
    let calls = each.each_mut().map(|call| calls(out, call));
    let mut times = [const { Vec::new() }; N];
    for _ in 0..rounds.max(1) {
        for number in 0..N {
            times[number].push(time(calls[number], out, each[number]));
        }
    }
    times.map(median)
}

fn median(mut times: Vec<f64>) -> f64 {
    times.sort_by(f64::total_cmp);
    times[times.len() / 2]
}

/// How many calls take the least time of a measurement.
fn calls(out: &mut [u8], call: Call<'_>) -> usize {
    let mut calls = 1;
    while time(calls, out, call) * (calls as f64) < LEAST.as_secs_f64() {
        calls *= 2;
    }
    calls
}

/// Seconds of one call, over so many.
fn time(calls: usize, out: &mut [u8], call: Call<'_>) -> f64 {
    let start = Instant::now();
    for _ in 0..calls {
        black_box(call(black_box(&mut *out)));
    }
    start.elapsed().as_secs_f64() / calls as f64
}
