//! Times of two calls, measured in turn in one run.

use std::time::{Duration, Instant};

const ROUNDS: usize = 41;
/// A call is repeated in a round until about this much time has gone by.
const ROUND: Duration = Duration::from_millis(2);

/// A call's times in nanoseconds, over the rounds.
#[derive(Clone, Copy)]
pub struct Times {
    pub least: f64,
    pub median: f64,
}

/// The times of both calls; the rounds take turns.
pub fn both(mut one: impl FnMut(), mut other: impl FnMut()) -> [Times; 2] {
    let repeats = [repeats(&mut one), repeats(&mut other)];
    let mut rounds = [Vec::new(), Vec::new()];
    for _ in 0..ROUNDS {
        rounds[0].push(round(&mut one, repeats[0]));
        rounds[1].push(round(&mut other, repeats[1]));
    }
    rounds.map(times)
}

/// How many calls fill a round; a warm-up as well.
fn repeats(call: &mut impl FnMut()) -> u32 {
    let begin = Instant::now();
    let mut count = 0;
    while begin.elapsed() < ROUND {
        call();
        count += 1;
    }
    count
}

/// The mean time of a call in one round, in nanoseconds.
fn round(call: &mut impl FnMut(), repeats: u32) -> f64 {
    let begin = Instant::now();
    for _ in 0..repeats {
        call();
    }
    begin.elapsed().as_nanos() as f64 / f64::from(repeats)
}

fn times(mut rounds: Vec<f64>) -> Times {
    rounds.sort_by(f64::total_cmp);
    Times {
        least: rounds[0],
        median: rounds[rounds.len() / 2],
    }
}
