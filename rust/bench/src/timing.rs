//! Best-of-many timings, side by side.

use std::time::{Duration, Instant};

/// How often each contender is timed.
const ROUNDS: usize = 400;

/// How long one timing takes about: much longer than the clock's step, and
/// shorter than a turn of the scheduler.
const TIMING: Duration = Duration::from_micros(200);

/// One of the contenders: does the work of a row once.
pub type Contender<'a> = &'a mut dyn FnMut();

/// The best time of each contender for one turn of its work, in nanoseconds.
///
/// The contenders take turns, so that what else the machine does falls on all
/// of them alike.
pub fn best_times<const N: usize>(contenders: [Contender; N]) -> [f64; N] {
    let mut contenders = contenders;
    let turns = contenders.each_mut().map(turns);
    let mut best = [f64::INFINITY; N];
    for _ in 0..ROUNDS {
        for (at, contender) in contenders.iter_mut().enumerate() {
            best[at] = best[at].min(time(contender, turns[at]));
        }
    }
    best
}

/// How many turns fill one timing; the turns taken to find out warm caches and
/// predictors.
fn turns(contender: &mut Contender) -> u32 {
    let mut turns = 1;
    while time(contender, turns) * f64::from(turns) < TIMING.as_nanos() as f64 {
        turns *= 2;
    }
    turns
}

/// Nanoseconds for one turn, of so many.
fn time(contender: &mut Contender, turns: u32) -> f64 {
    let start = Instant::now();
    for _ in 0..turns {
        contender();
    }
    start.elapsed().as_nanos() as f64 / f64::from(turns)
}
