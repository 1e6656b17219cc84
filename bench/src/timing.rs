//! Interleaved rounds of all sides, and their medians.

use std::hint::black_box;
use std::time::{Duration, Instant};

/// How long and how often to measure.
#[derive(Clone, Copy)]
pub struct Effort {
    pub rounds: usize,
    /// What one side's turn in a round shall take, about.
    pub turn: Duration,
}

/// Seconds of a symbol, by side and round.
pub struct Measured<const SIDES: usize> {
    times: [Vec<f64>; SIDES],
}

/// How the ratio of two sides in a round is spread.
pub struct Ratio {
    pub median: f64,
    /// What a quarter of the rounds are below, and above.
    pub middle_half: (f64, f64),
}

impl<const SIDES: usize> Measured<SIDES> {
    pub fn median(&self, side: usize) -> f64 {
        at_share(&mut self.times[side].clone(), 0.5)
    }

    /// How long a side takes where another takes 1.
    pub fn ratio(&self, side: usize, other: usize) -> Ratio {
        let rounds = self.times[side].iter().zip(&self.times[other]);
        let mut ratios: Vec<f64> = rounds.map(|(time, other)| time / other).collect();
        Ratio {
            median: at_share(&mut ratios, 0.5),
            middle_half: (at_share(&mut ratios, 0.25), at_share(&mut ratios, 0.75)),
        }
    }
}

/// Times all sides at the same symbols, of which there are `cycle`; the side that goes first changes
/// each round.
pub fn measure<Side: Copy, A, const SIDES: usize>(
    effort: Effort,
    cycle: usize,
    sides: [Side; SIDES],
    mut symbol: impl FnMut(Side) -> A,
) -> Measured<SIDES> {
    let count = symbols_per_turn(effort.turn, cycle as u32, sides, &mut symbol);
    let mut times = [const { Vec::new() }; SIDES];
    for round in 0..effort.rounds {
        for k in 0..SIDES {
            let side = (round + k) % SIDES;
            times[side].push(turn(count, sides[side], &mut symbol));
        }
    }
    Measured { times }
}

/// Symbols that the slowest side gets through in a turn, in whole cycles; also warms all up.
fn symbols_per_turn<Side: Copy, A, const SIDES: usize>(
    wanted: Duration,
    cycle: u32,
    sides: [Side; SIDES],
    symbol: &mut impl FnMut(Side) -> A,
) -> u32 {
    let mut count = cycle;
    loop {
        let times = sides.map(|side| turn(count, side, symbol));
        let slowest = times.into_iter().fold(0.0, f64::max);
        if 2.0 * slowest * f64::from(count) > wanted.as_secs_f64() {
            return count;
        }
        count *= 2;
    }
}

/// Seconds for each of so many symbols.
fn turn<Side: Copy, A>(count: u32, side: Side, symbol: &mut impl FnMut(Side) -> A) -> f64 {
    let start = Instant::now();
    for _ in 0..count {
        black_box(symbol(black_box(side)));
    }
    start.elapsed().as_secs_f64() / f64::from(count)
}

/// The value that this share of the list is below.
fn at_share(values: &mut [f64], share: f64) -> f64 {
    values.sort_by(f64::total_cmp);
    values[((values.len() - 1) as f64 * share).round() as usize]
}
