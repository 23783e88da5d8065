//! Times of the library and of the plain implementation on the same files, taken in turn.
//! Assumes that nothing else keeps the machine busy; where it does, the ratios hold better than the times.

use crate::calls::{Function, ROOM};
use crate::inputs::Row;
use std::hint::black_box;
use std::time::Instant;

/// How often each file is measured; an odd number, so that a median is one of the times.
const ROUNDS: usize = 31;

/// A time is taken over so many calls that they last about this long, in seconds.
const BATCH: f64 = 50e-6;

/// Seconds per call: each file's median, the library's and the plain implementation's in the order of the files.
pub struct Times {
    pub library: Vec<f64>,
    pub plain: Vec<f64>,
}

pub fn measure(row: &Row) -> Times {
    let (library, plain) = row.files.iter().map(|file| file_medians(row, file)).unzip();
    Times { library, plain }
}

fn file_medians(row: &Row, file: &[u8]) -> (f64, f64) {
    let functions = [row.call.library, row.call.plain];
    let repeats = functions.map(|function| {
        let once = per_call(function, file, 1).min(per_call(function, file, 1));
        (BATCH / once).ceil().clamp(1.0, 10_000.0) as usize
    });
    let mut times = [Vec::new(), Vec::new()];
    for round in 0..ROUNDS {
        // Each is the first in every other round.
        for turn in 0..2 {
            let which = (round + turn) % 2;
            times[which].push(per_call(functions[which], file, repeats[which]));
        }
    }
    (median(&times[0]), median(&times[1]))
}

fn per_call(function: Function, file: &[u8], repeats: usize) -> f64 {
    let mut out = [0; ROOM];
    let start = Instant::now();
    repeat(function, file, &mut out, repeats);
    start.elapsed().as_secs_f64() / repeats as f64
}

pub fn repeat(function: Function, file: &[u8], out: &mut [u8], repeats: usize) {
    for _ in 0..repeats {
        black_box(function(black_box(file), black_box(out)));
    }
}

pub fn median(times: &[f64]) -> f64 {
    let mut sorted = times.to_vec();
    sorted.sort_by(f64::total_cmp);
    sorted[sorted.len() / 2]
}
