//! Timing: pieces of work take turns, so that what else the machine does falls on all of them alike, and of each the
//! best round counts.
use std::time::{Duration, Instant};

const ROUNDS: u32 = 6;

/// Nanoseconds of one run of each piece. `measurement` is about what all rounds of one piece take.
pub fn best<const N: usize>(mut pieces: [&mut dyn FnMut(); N], measurement: Duration) -> [f64; N] {
    let round = measurement / ROUNDS;
    let times = pieces.each_mut().map(|piece| times_in(round, piece));
    let mut best = [f64::INFINITY; N];
    for _ in 0..ROUNDS {
        for at in 0..N {
            let mean = nanoseconds(times[at], pieces[at]) / f64::from(times[at]);
            best[at] = best[at].min(mean);
        }
    }
    best
}

/// How many runs fill a round, at least one. The first run is not counted: it warms the caches.
fn times_in(round: Duration, piece: &mut dyn FnMut()) -> u32 {
    nanoseconds(1, piece);
    let one = nanoseconds(1, piece).max(1.0);
    (round.as_nanos() as f64 / one).clamp(1.0, 1e9) as u32
}

fn nanoseconds(times: u32, piece: &mut dyn FnMut()) -> f64 {
    let started = Instant::now();
    for _ in 0..times {
        piece();
    }
    started.elapsed().as_nanos() as f64
}
