//! A line with noise: frames go in, and are read right or wrong.

use super::curve::{Effort, Rate};
use super::gaussian;
use super::unrounded::Unrounded;
use crate::load::OwnTables;
use crate::peer;
use crate::symbols::{packed, Points, REGISTER};
use difftest::random::Random;

/// Every symbol has so many tones of so many bits.
pub const TONES: usize = 64;
pub const BITS: u8 = 6;
pub const SEED: u64 = 2013;

/// How far neighbouring points are apart.
const APART: f64 = 2.0;
/// How near to an even number a coordinate counts as undecided.
const DOUBT: f64 = 0.4;

/// What a received coordinate is rounded to before it is read. Points have odd coordinates, so an even one
/// is as near to the one below as to the one above.
#[derive(Clone, Copy, PartialEq)]
pub enum Rounding {
    Odd,
    /// An even number if it is nearest.
    Whole,
    /// An even number if the coordinate is quite near to it.
    Doubt,
    /// None to speak of. The call takes whole numbers, so that the peer's search is used without it.
    Fine,
}

/// How symbols are sent and read.
#[derive(Clone, Copy)]
pub struct Way {
    pub name: &'static str,
    pub coded: bool,
    pub rounding: Rounding,
}

pub struct Line {
    way: Way,
    tables: OwnTables,
    l: usize,
    unrounded: Unrounded,
    written: Points,
    read: Vec<u8>,
    work: Vec<u8>,
}

impl Line {
    pub fn new(way: Way) -> Line {
        let tables = OwnTables {
            coded: u8::from(way.coded),
            bits: vec![BITS; TONES],
            gains: vec![512; TONES],
            tones: (0..TONES as u16).collect(),
        };
        let l = peer::check(tables.lent()).size as usize;
        Line {
            way,
            l,
            unrounded: Unrounded::new(BITS),
            written: Points::zero(TONES),
            read: vec![0; l.div_ceil(8)],
            work: vec![0; clevisroot_sys::work_bytes(tables.lent())],
            tables,
        }
    }

    /// Sends frames at a noise level until they are enough.
    pub fn measure(&mut self, decibels: f64, effort: Effort) -> Rate {
        let deviation = APART / 10_f64.powf(decibels / 20.0);
        let random = &mut Random::for_case(SEED, decibels.to_bits());
        let (mut wrong, mut frames) = (0, 0);
        while wrong < effort.wrong && frames < effort.frames {
            wrong += u32::from(self.is_wrong(deviation, random));
            frames += 1;
        }
        Rate {
            decibels,
            wrong,
            frames,
        }
    }

    /// Sends one random frame, and tells whether another is read.
    fn is_wrong(&mut self, deviation: f64, random: &mut Random) -> bool {
        let bits: Vec<bool> = (0..self.l).map(|_| random.one_in(2)).collect();
        let frame = packed(&bits, 0);
        let Points { x, y } = &mut self.written;
        let answer = peer::encode(self.tables.lent(), &frame, REGISTER, x, y);
        assert_eq!(answer.number, 0);
        let received = with_noise(&self.written, deviation, random);
        match self.way.rounding {
            Rounding::Odd => self.reads_other(&frame, &received, to_odd),
            Rounding::Whole => self.reads_other(&frame, &received, f64::round),
            Rounding::Doubt => self.reads_other(&frame, &received, to_even_in_doubt),
            Rounding::Fine => !self.unrounded.read_coded(&received).starts_with(&frame),
        }
    }

    /// From the points, once they are rounded, the call reads another frame.
    fn reads_other(&mut self, frame: &[u8], received: &[[f64; 2]], round: fn(f64) -> f64) -> bool {
        let list = |k: usize| received.iter().map(move |point| round(point[k]) as i16);
        let (x, y): (Vec<i16>, Vec<i16>) = (list(0).collect(), list(1).collect());
        let Line { read, work, .. } = self;
        let answer = peer::read_nearest(self.tables.lent(), &x, &y, REGISTER, read, 0, work);
        assert_eq!(answer.number, 0);
        self.read != frame
    }
}

fn with_noise(written: &Points, deviation: f64, random: &mut Random) -> Vec<[f64; 2]> {
    let noisy = |(&x, &y)| {
        let [off_x, off_y] = gaussian::two(random);
        [
            f64::from(x) + deviation * off_x,
            f64::from(y) + deviation * off_y,
        ]
    };
    written.x.iter().zip(&written.y).map(noisy).collect()
}

fn to_odd(coordinate: f64) -> f64 {
    2.0 * (coordinate / 2.0).floor() + 1.0
}

fn to_even_in_doubt(coordinate: f64) -> f64 {
    let even = 2.0 * (coordinate / 2.0).round();
    if (coordinate - even).abs() < DOUBT {
        even
    } else {
        to_odd(coordinate)
    }
}
