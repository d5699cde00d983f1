//! Times of calls: medians of several, the sides in turn, so that they share the machine's
//! noise.

use crate::figures::time;
use std::hint::black_box;
use std::time::Instant;

/// The most samples of a side; odd, so that one of them is the median.
const SAMPLES: usize = 301;

/// A side with three samples has enough after so many seconds, any side after so many more.
const ENOUGH: f64 = 0.4;
const PLENTY: f64 = 3.0;

/// Something to be timed: it answers the seconds that it took.
pub type Side<'a> = &'a mut dyn FnMut() -> f64;

/// The seconds that a call takes.
pub fn seconds<T>(call: impl FnOnce() -> T) -> f64 {
    let start = Instant::now();
    black_box(call());
    start.elapsed().as_secs_f64()
}

fn has_enough(times: &[f64]) -> bool {
    let spent: f64 = times.iter().sum();
    times.len() == SAMPLES || spent > PLENTY || times.len() >= 3 && spent > ENOUGH
}

fn middles(times: Vec<Vec<f64>>) -> Vec<f64> {
    let middle = |times| quantile(times, 0.5);
    times.into_iter().map(middle).collect()
}

/// The median seconds of each side.
pub fn medians(mut sides: Vec<Side>) -> Vec<f64> {
    let mut times = vec![Vec::new(); sides.len()];
    while !times.iter().all(|times| has_enough(times)) {
        for (side, times) in sides.iter_mut().zip(&mut times) {
            if !has_enough(times) {
                times.push(side());
            }
        }
    }
    middles(times)
}

/// How many times longer, by its median, the second side takes than the first. Each sample of
/// the one is followed by one of the other, so that a slow while of the machine is theirs both.
pub fn grown(first: Side, second: Side) -> f64 {
    let mut times = vec![Vec::new(), Vec::new()];
    while !times
        .iter()
        .all(|times| times.len() >= SAMPLES || has_enough(times))
    {
        times[0].push(first());
        times[1].push(second());
    }
    let middles = middles(times);
    middles[1] / middles[0]
}

/// The value below which such a share of the values lies.
pub fn quantile(mut values: Vec<f64>, share: f64) -> f64 {
    values.sort_by(f64::total_cmp);
    values[((values.len() - 1) as f64 * share).round() as usize]
}

/// The mean of some values, of which there is at least one.
pub fn mean(values: &[f64]) -> f64 {
    values.iter().sum::<f64>() / values.len() as f64
}

/// A fixed piece of work, timed again and again between the measurements: what differs in its
/// time is the machine's.
pub struct Noise {
    times: Vec<f64>,
}

impl Noise {
    pub fn new() -> Noise {
        Noise { times: Vec::new() }
    }

    pub fn sample(&mut self) {
        for _ in 0..5 {
            self.times.push(seconds(|| {
                (0..1_000_000u64).fold(1u64, |sum, at| {
                    sum.rotate_left(7).wrapping_mul(0x9E37_79B9_7F4A_7C15) ^ at
                })
            }));
        }
    }

    /// The times at a tenth, at the middle, at nine tenths and at the end.
    fn quantiles(&self) -> [f64; 4] {
        [0.1, 0.5, 0.9, 1.0].map(|share| quantile(self.times.clone(), share))
    }

    /// The machine's noise, as a sentence.
    pub fn said(&self) -> String {
        let [low, middle, high, most] = self.quantiles();
        format!(
            "The machine's noise: one fixed piece of work, timed between all measurements, took {} \
             in the middle, {} at a tenth, {} at nine tenths and {} at most.",
            time(middle),
            time(low),
            time(high),
            time(most)
        )
    }
}
