//! Times the sides of a row in turns.

use std::hint::black_box;
use std::time::{Duration, Instant};

/// Makes one timed round and gives the nanoseconds of one call.
pub type Round<'a> = Box<dyn FnMut() -> f64 + 'a>;

/// The least nanoseconds that a round of repeated calls should take.
const ROUND: f64 = 20_000.0;

/// A round of calls that leave their image as it was, repeated so that the clock's own time is small.
pub fn repeated<'a, T>(mut call: impl FnMut() -> T + 'a) -> Round<'a> {
    black_box(call());
    let start = Instant::now();
    black_box(call());
    let once = start.elapsed().as_nanos() as f64;
    let calls = (ROUND / once.max(1.0)).clamp(1.0, 10_000.0) as u32;
    Box::new(move || {
        let start = Instant::now();
        for _ in 0..calls {
            black_box(call());
        }
        start.elapsed().as_nanos() as f64 / f64::from(calls)
    })
}

/// A round of one call on a fresh copy of the image, which is made before the clock starts.
pub fn edited<'a, T>(image: &'a [u8], mut call: impl FnMut(&mut [u8]) -> T + 'a) -> Round<'a> {
    let mut copy = image.to_vec();
    Box::new(move || {
        copy.copy_from_slice(image);
        let start = Instant::now();
        black_box(call(black_box(&mut copy)));
        start.elapsed().as_nanos() as f64
    })
}

/// How long a row is measured: the time for each side, and the fewest rounds.
#[derive(Clone, Copy)]
pub struct Effort {
    pub share: Duration,
    pub rounds: usize,
}

/// The least time of each side over rounds in turns, after one round of each that is not counted.
pub fn least(sides: &mut [Round], effort: Effort) -> Vec<f64> {
    let end = Instant::now() + effort.share * sides.len() as u32;
    let mut least = vec![f64::INFINITY; sides.len()];
    for side in sides.iter_mut() {
        side();
    }
    let mut round = 0;
    while round < effort.rounds || Instant::now() < end {
        for (side, least) in sides.iter_mut().zip(&mut least) {
            *least = least.min(side());
        }
        round += 1;
    }
    least
}
