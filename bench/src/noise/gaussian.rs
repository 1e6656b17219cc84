//! Gaussian noise, by the method of Box and Muller.

use difftest::random::Random;
use std::f64::consts::TAU;

/// Two independent numbers of mean 0 and deviation 1: the noise of a point.
pub fn two(random: &mut Random) -> [f64; 2] {
    let size = (-2.0 * unit(random).ln()).sqrt();
    let (sine, cosine) = (TAU * unit(random)).sin_cos();
    [size * cosine, size * sine]
}

/// A number above 0 and up to 1, all as likely.
fn unit(random: &mut Random) -> f64 {
    const STEPS: f64 = (1_u64 << 53) as f64;
    ((random.word() >> 11) + 1) as f64 / STEPS
}
