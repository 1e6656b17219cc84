//! Frames of a table set, with their points as written and as received.

use crate::load::{Load, OwnTables};
use crate::peer;
use difftest::random::Random;

/// Frames in turn at least, so that no side profits from one frame's bits.
const FRAMES: usize = 8;
pub const REGISTER: u32 = 8_388_607;
/// How far a received coordinate is off at most.
const NOISE: usize = 3;

/// The bits of its first byte that a frame may start at.
pub const STARTS: [u8; 8] = [0, 1, 2, 3, 4, 5, 6, 7];

#[derive(Clone, PartialEq)]
pub struct Points {
    pub x: Vec<i16>,
    pub y: Vec<i16>,
}

pub struct Symbol {
    /// The same bits from each start.
    pub frames: [Vec<u8>; STARTS.len()],
    pub written: Points,
    /// The same with noise.
    pub received: Points,
}

/// A table set with symbols of it.
pub struct Set {
    pub tables: OwnTables,
    pub symbols: Vec<Symbol>,
}

impl Points {
    pub fn zero(nsc: usize) -> Points {
        Points {
            x: vec![0; nsc],
            y: vec![0; nsc],
        }
    }

    /// The same by half a turn.
    pub fn turned(&self) -> Points {
        let negated = |list: &Vec<i16>| list.iter().map(|coordinate| -coordinate).collect();
        Points {
            x: negated(&self.x),
            y: negated(&self.y),
        }
    }

    /// The same with noise at every place: all that a coordinate can be off are as likely.
    fn with_noise(&self, random: &mut Random) -> Points {
        let mut received = self.clone();
        for coordinate in received.x.iter_mut().chain(&mut received.y) {
            *coordinate += random.within(0, 2 * NOISE) as i16 - NOISE as i16;
        }
        received
    }

    /// The squared distance at each place.
    pub fn distances<'a>(&'a self, other: &'a Points) -> impl Iterator<Item = u64> + 'a {
        let square = |(one, other): (&i16, &i16)| u64::from(one.abs_diff(*other)).pow(2);
        let x = self.x.iter().zip(&other.x).map(square);
        let y = self.y.iter().zip(&other.y).map(square);
        x.zip(y).map(|(x, y)| x + y)
    }
}

impl Symbol {
    fn random(random: &mut Random, tables: &OwnTables, l: usize) -> Symbol {
        let bits: Vec<bool> = (0..l).map(|_| random.one_in(2)).collect();
        let frames = STARTS.map(|start| packed(&bits, start));
        let nsc = tables.tones.len();
        let mut written = Points::zero(nsc);
        let Points { x, y } = &mut written;
        let answer = peer::encode(tables.lent(), &frames[0], REGISTER, x, y);
        assert_eq!(answer.number, 0);
        Symbol {
            frames,
            received: written.with_noise(random),
            written,
        }
    }
}

impl Set {
    /// Draws tables until some are accepted, and writes the symbols with the peer.
    pub fn random(random: &mut Random, load: Load, nsc: usize) -> Set {
        loop {
            let tables = OwnTables::random(random, load, nsc);
            let answer = peer::check(tables.lent());
            if answer.number == 0 {
                let l = answer.size as usize;
                let symbols = (0..FRAMES.div_ceil(load.sets))
                    .map(|_| Symbol::random(random, &tables, l))
                    .collect();
                return Set { tables, symbols };
            }
        }
    }
}

/// These bits from a start, zeros around them.
pub fn packed(bits: &[bool], start: u8) -> Vec<u8> {
    let start = usize::from(start);
    let mut frame = vec![0; (start + bits.len()).div_ceil(8)];
    for (k, &bit) in (start..).zip(bits) {
        frame[k / 8] |= u8::from(bit) << (k % 8);
    }
    frame
}
