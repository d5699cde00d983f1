//! The time of one call by three libraries in turn: the earlier one, the one of now, and a copy
//! of the earlier one, whose time tells the noise.

use crate::calls::{Call, Lent};
use crate::library::Library;
use crate::measure::{quantile, seconds};
use crate::places::{Placed, PLACES};
use std::hint::black_box;

/// The most samples of a side; odd, so that one of them is the median.
const SAMPLES: usize = 301;

/// A side with so many samples has enough after so many seconds.
const FEW: usize = 15;
const ENOUGH: f64 = 1.0;

/// The least time of a sample, where a call can be made again and again.
const SAMPLE: f64 = 5e-5;

/// How often a call that is over the bar is measured again.
pub const AGAIN: usize = 3;

/// The orders of the sides; each is followed by its reverse.
const TURNS: [[usize; 3]; 6] = [
    [0, 1, 2],
    [2, 1, 0],
    [1, 2, 0],
    [0, 2, 1],
    [2, 0, 1],
    [1, 0, 2],
];

/// The libraries, in the order in which their times are given.
pub struct Sides {
    pub before: Placed,
    pub after: Placed,
    pub copy: Placed,
}

/// The earlier library, and another one in turn with it.
#[derive(Clone, Copy)]
pub struct Pair {
    /// The median seconds of each.
    pub before: f64,
    pub other: f64,
    /// The median of the ratios, one a turn. A slow while of the machine is longer than a turn, so
    /// it is in both times of a ratio; beside other work the ratio of the medians is far noisier.
    pub ratio: f64,
}

impl Pair {
    fn of(before: &[f64], other: &[f64]) -> Pair {
        let ratios = other
            .iter()
            .zip(before)
            .map(|(other, before)| other / before);
        Pair {
            before: quantile(before.to_vec(), 0.5),
            other: quantile(other.to_vec(), 0.5),
            ratio: quantile(ratios.collect(), 0.5),
        }
    }

    fn lesser(self, pair: Pair) -> Pair {
        if pair.ratio < self.ratio {
            pair
        } else {
            self
        }
    }
}

/// The times of one call.
#[derive(Clone, Copy)]
pub struct Times {
    /// The library of now beside the earlier one.
    pub after: Pair,
    /// The earlier one's copy beside it.
    pub copy: Pair,
    /// How often they were taken again.
    pub again: usize,
}

/// Times a call; where a ratio is over the bar, again, and the least ratio counts.
pub fn times(sides: &Sides, call: Call, lent: &Lent, bar: f64) -> Times {
    let mut times = once(sides, call, lent);
    let is_over = |times: Times| times.after.ratio > bar || times.copy.ratio > bar;
    while is_over(times) && times.again < AGAIN {
        let next = once(sides, call, lent);
        times = Times {
            after: times.after.lesser(next.after),
            copy: times.copy.lesser(next.copy),
            again: times.again + 1,
        };
    }
    times
}

/// One measurement: turn after turn, in each of which every library has a sample.
fn once(sides: &Sides, call: Call, start: &Lent) -> Times {
    let libraries = [&sides.before, &sides.after, &sides.copy];
    let mut lent = start.clone();
    let calls = calls_for_sample(&sides.before[0], call, start, &mut lent);
    let mut times = [(); 3].map(|()| Vec::new());
    let mut turns = TURNS.iter().cycle();
    while !has_enough(&times[0], calls) {
        for &side in turns.next().expect("they come again and again") {
            times[side].push(everywhere(libraries[side], call, calls, start, &mut lent));
        }
    }
    let [before, after, copy] = &times;
    Times {
        after: Pair::of(before, after),
        copy: Pair::of(before, copy),
        again: 0,
    }
}

fn has_enough(times: &[f64], calls: u32) -> bool {
    let spent: f64 = times.iter().sum::<f64>() * f64::from(calls) * PLACES as f64;
    times.len() == SAMPLES || times.len() >= FEW && spent > ENOUGH
}

/// As many calls as take the least time of a sample; one where a call changes what it reads.
fn calls_for_sample(library: &Library, call: Call, start: &Lent, lent: &mut Lent) -> u32 {
    let mut calls = 1;
    while call.repeats() && sample(library, call, calls, start, lent) * f64::from(calls) < SAMPLE {
        calls *= 2;
    }
    calls
}

/// A sample at each place of a library: the mean of them.
fn everywhere(placed: &Placed, call: Call, calls: u32, start: &Lent, lent: &mut Lent) -> f64 {
    let took = placed
        .each_ref()
        .map(|library| sample(library, call, calls, start, lent));
    took.iter().sum::<f64>() / PLACES as f64
}

/// The seconds of one of so many calls. All sides are lent the same memory, and a call that
/// changes what it reads finds it as it was: this is done before the clock starts.
fn sample(library: &Library, call: Call, calls: u32, start: &Lent, lent: &mut Lent) -> f64 {
    if !call.repeats() {
        lent.restore(start);
    }
    let took = seconds(|| {
        for _ in 0..calls {
            black_box(library.call(call, black_box(lent)));
        }
    });
    took / f64::from(calls)
}
