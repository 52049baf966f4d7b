//! Several ways to do the same, timed in turns.

use std::time::{Duration, Instant};

/// So long a sample takes at least; calls are repeated for it.
const SAMPLE: Duration = Duration::from_micros(200);
const ROUNDS: usize = 150;

/// Nanoseconds of one call.
pub struct Times {
    pub best: f64,
    pub median: f64,
}

/// Samples of each, in turns.
pub fn compare<const N: usize>(mut ways: [impl FnMut(); N]) -> [Times; N] {
    let mut calls = [0; N];
    for (calls, way) in calls.iter_mut().zip(&mut ways) {
        *calls = enough(way);
    }
    let mut samples = [const { Vec::new() }; N];
    for _ in 0..ROUNDS {
        for way in 0..N {
            samples[way].push(sample(&mut ways[way], calls[way]));
        }
    }
    samples.map(|mut samples| {
        samples.sort_by(f64::total_cmp);
        Times {
            best: samples[0],
            median: samples[ROUNDS / 2],
        }
    })
}

/// How many calls fill a sample.
fn enough(call: &mut impl FnMut()) -> u32 {
    let mut calls = 1;
    while sample(call, calls) * (calls as f64) < SAMPLE.as_nanos() as f64 {
        calls *= 2;
    }
    calls
}

/// Nanoseconds of one call, over so many.
fn sample(call: &mut impl FnMut(), calls: u32) -> f64 {
    let start = Instant::now();
    for _ in 0..calls {
        call();
    }
    start.elapsed().as_nanos() as f64 / calls as f64
}
