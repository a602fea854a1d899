//! Calls a second, from alternating batches.

use std::time::{Duration, Instant};

/// Batches of each call.
pub const BATCHES: usize = 21;
const BATCH_TIME: Duration = Duration::from_millis(10);

/// How often a second each of some calls can be made: the median of its batches.
pub fn rates<const N: usize>(mut calls: [&mut dyn FnMut(); N]) -> [f64; N] {
    let counts = calls.each_mut().map(|call| batch_size(*call));
    let mut rates = counts.map(|_| Vec::with_capacity(BATCHES));
    for _ in 0..BATCHES {
        for (at, call) in calls.iter_mut().enumerate() {
            let time = time_batch(*call, counts[at]);
            rates[at].push(f64::from(counts[at]) / time.as_secs_f64());
        }
    }
    rates.map(median)
}

fn time_batch(call: &mut dyn FnMut(), count: u32) -> Duration {
    let start = Instant::now();
    for _ in 0..count {
        call();
    }
    start.elapsed()
}

/// Doubles the number of calls until a batch is long enough to be timed.
fn batch_size(call: &mut dyn FnMut()) -> u32 {
    let mut count = 1;
    while time_batch(call, count) < BATCH_TIME {
        count *= 2;
    }
    count
}

/// The middle one of some figures.
pub fn median(mut figures: Vec<f64>) -> f64 {
    figures.sort_unstable_by(f64::total_cmp);
    figures[figures.len() / 2]
}
