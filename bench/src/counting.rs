//! Symbols to count in a tally: frames as sent and as read, the same for both sides.

use crate::peer;
use clevisroot_sys::{Tallied, Tally};
use difftest::random::Random;

pub type CountRead = fn(Tally, &[u8], &[u8]) -> Tallied;

/// Symbols in turn, so that no side profits from one frame's bits.
const SYMBOLS: usize = 8;

/// What the frames that were read are.
#[derive(Clone, Copy)]
pub enum Wrong {
    /// Others than were sent: each bit differs one time in two.
    Half,
    Nothing,
}

pub struct Counting {
    /// What was sent, and what was read.
    frames: Vec<(Vec<u8>, Vec<u8>)>,
    tally: Tally,
    /// Counts the symbols.
    next: usize,
}

impl Counting {
    pub fn new(bytes: usize, wrong: Wrong) -> Counting {
        let random = &mut Random::for_case(bytes as u64, 0);
        let mut frame = || -> Vec<u8> { (0..bytes).map(|_| random.word() as u8).collect() };
        let mut symbol = |_| {
            let sent = frame();
            let read = match wrong {
                Wrong::Half => frame(),
                Wrong::Nothing => sent.clone(),
            };
            (sent, read)
        };
        Counting {
            frames: (0..SYMBOLS).map(&mut symbol).collect(),
            tally: peer::tally_new(),
            next: 0,
        }
    }

    /// After so many symbols the first comes again.
    pub fn cycle(&self) -> usize {
        self.frames.len()
    }

    /// Counts the next symbol; each is the first of its tally, so that none is ever full.
    pub fn count(&mut self, count: CountRead) -> Tallied {
        self.next = (self.next + 1) % self.cycle();
        let (sent, read) = &self.frames[self.next];
        count(self.tally, sent, read)
    }

    /// Two implementations answer alike, and refuse nothing.
    pub fn agree(&mut self, implementations: [CountRead; 2]) -> bool {
        (0..self.cycle()).all(|_| {
            let next = self.next;
            let [one, other] = implementations.map(|count| {
                self.next = next;
                self.count(count)
            });
            one == other && one.number == 0
        })
    }
}
