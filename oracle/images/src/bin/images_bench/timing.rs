//! Times of sides that take turns.

use std::time::{Duration, Instant};

const ROUNDS: usize = 9;
const ROUND: Duration = Duration::from_millis(120);
const LEAST_TURNS: usize = 3;

/// One turn of a side.
pub type Side<'a> = Box<dyn FnMut() + 'a>;

/// Nanoseconds of each side: the best turn of a round counts, and of all rounds the median. So
/// what else the machine does hardly shows.
pub fn alternate<const N: usize>(mut sides: [Side; N]) -> [f64; N] {
    let rounds: Vec<_> = (0..ROUNDS).map(|_| round(&mut sides)).collect();
    std::array::from_fn(|side| median(rounds.iter().map(|round| round[side])))
}

fn round<const N: usize>(sides: &mut [Side; N]) -> [f64; N] {
    let mut best = [f64::INFINITY; N];
    let start = Instant::now();
    let mut turns = 0;
    while turns < LEAST_TURNS || start.elapsed() < ROUND {
        for (side, best) in sides.iter_mut().zip(&mut best) {
            let start = Instant::now();
            side();
            *best = best.min(start.elapsed().as_nanos() as f64);
        }
        turns += 1;
    }
    best
}

fn median(values: impl Iterator<Item = f64>) -> f64 {
    let mut values: Vec<_> = values.collect();
    values.sort_by(f64::total_cmp);
    values[values.len() / 2]
}
