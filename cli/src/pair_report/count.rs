//! The figures of a pair. The library counts them; what is kept besides is when each symbol came and
//! with which number it was refused.

use crate::files::{LogEntry, Received};
use clevisroot_sys::refusals::DONE;
use clevisroot_sys::{self as library, Tallied, Tally};
use std::collections::BTreeMap;

/// What became of a symbol; the worst comes last.
#[derive(Clone, Copy, Debug, PartialEq, Eq, PartialOrd, Ord)]
pub enum Outcome {
    AsSent,
    WrongBits,
    Refused,
}

pub struct Count {
    pub tally: Tally,
    /// Of each symbol, in the order of time.
    pub outcomes: Vec<Outcome>,
    /// How many symbols were refused with each number.
    pub refusals: BTreeMap<u32, u32>,
    /// The number of the first refusal.
    pub first_number: Option<u32>,
    /// The bytes of the frames that were read.
    pub bytes_read: u64,
}

impl Count {
    pub fn new() -> Count {
        Count {
            tally: library::tally_new(),
            outcomes: Vec::new(),
            refusals: BTreeMap::new(),
            first_number: None,
            bytes_read: 0,
        }
    }

    /// Counts a symbol, or tells the number with which the library refuses to.
    pub fn add(&mut self, entry: &LogEntry) -> Result<(), u32> {
        let LogEntry { sent, received } = entry;
        let Tallied { number, tally } = match received {
            Received::Read(read) => library::tally_read(self.tally, sent, read),
            Received::Refused(refusal) => library::tally_refused(self.tally, sent, *refusal),
        };
        if number != DONE {
            return Err(number);
        }
        self.outcomes.push(outcome(&self.tally, &tally));
        self.tally = tally;
        match received {
            Received::Read(read) => self.bytes_read += read.len() as u64,
            Received::Refused(refusal) => {
                *self.refusals.entry(*refusal).or_default() += 1;
                self.first_number.get_or_insert(*refusal);
            }
        }
        Ok(())
    }

    /// The symbols that were not refused.
    pub fn read(&self) -> u32 {
        self.tally.symbols - self.tally.refused
    }
}

/// What became of the symbol that the tally has more than before.
fn outcome(before: &Tally, after: &Tally) -> Outcome {
    if after.refused > before.refused {
        Outcome::Refused
    } else if after.wrong_frames > before.wrong_frames {
        Outcome::WrongBits
    } else {
        Outcome::AsSent
    }
}
