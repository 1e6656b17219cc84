//! What came of symbols that were turned by a quarter.

use crate::seen;
use reference::quarter::quarter_refusal;
use reference::refusals::Refusal;
use reference::reordering::{nonzero_entries, reordered_bits};
use reference::Tables;
use std::fmt;

#[derive(Clone, Copy)]
pub enum Outcome {
    OneBit,
    Monitored,
    OddN,
    FourEntries,
    EvenN,
    Other13,
    Other14,
    Other15,
    Other15Monitored,
    Half14,
    Half15,
    Half15Monitored,
    Neither,
    Uncoded13,
    Uncoded14,
    UncodedRead,
    UncodedEmpty,
}

/// In the order of [`Outcome`].
const OUTCOMES: [&str; 17] = [
    "13 at a 1-bit tone",
    "14 at a monitored one",
    "15 at pair 0 with N odd",
    "15 at pair 0 with N = 4",
    "15 at pair 1",
    "13 with another register",
    "14 with another register",
    "15 with another register and none monitored",
    "15 with another register and one monitored",
    "14 of half a turn with N odd and another register",
    "15 of half a turn with N odd, another register and none monitored",
    "15 of half a turn with N odd, another register and one monitored",
    "neither by the clip check",
    "uncoded 13",
    "uncoded 14",
    "uncoded read as another frame",
    "uncoded read with L = 0",
];

/// Which way a symbol is turned.
#[derive(Clone, Copy, Debug)]
pub enum Way {
    Left,
    Right,
}

/// The kinds of coded tables, which are the first outcomes.
const KINDS: usize = Outcome::EvenN as usize + 1;

/// How often each outcome came, and each kind of coded tables from each start, either way.
#[derive(Default)]
pub struct Quarters {
    outcomes: [u64; OUTCOMES.len()],
    starts: [[[u64; 8]; 2]; KINDS],
}

impl Quarters {
    pub fn record(&mut self, outcome: Outcome) {
        self.outcomes[outcome as usize] += 1;
    }

    /// A refused symbol of these coded tables.
    pub fn record_coded(&mut self, tables: &Tables, way: Way, start: u8) {
        let kind = kind_of(tables);
        self.record(kind);
        self.starts[kind as usize][way as usize][usize::from(start)] += 1;
    }

    fn fewest_of_a_start(&self) -> u64 {
        let each = self.starts.iter().flatten().flatten();
        each.copied().min().unwrap_or(0)
    }

    pub fn verdict(&self) -> Result<(), String> {
        match seen::never(&OUTCOMES, &self.outcomes) {
            Some(outcome) => Err(format!("quarter turns: never {outcome}")),
            None if self.fewest_of_a_start() == 0 => {
                Err("quarter turns: a kind of tables never came from some start".into())
            }
            None => Ok(()),
        }
    }
}

/// By what the refusal follows from.
fn kind_of(tables: &Tables) -> Outcome {
    let n = nonzero_entries(&reordered_bits(tables));
    match quarter_refusal(tables) {
        Refusal::Offgrid(_) => Outcome::OneBit,
        Refusal::Monitor(_) => Outcome::Monitored,
        _ if n % 2 == 1 => Outcome::OddN,
        _ if n == 4 => Outcome::FourEntries,
        _ => Outcome::EvenN,
    }
}

impl fmt::Display for Quarters {
    fn fmt(&self, f: &mut fmt::Formatter) -> fmt::Result {
        let told = seen::told(&OUTCOMES, &self.outcomes);
        let fewest = self.fewest_of_a_start();
        write!(
            f,
            "{told}; each kind of coded tables from each start, either way, {fewest} times at least"
        )
    }
}
