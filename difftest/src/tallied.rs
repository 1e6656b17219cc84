//! What came of the calls of a tally.

use crate::seen;
use clevisroot_sys::refusals::{FRAME, FULL};
use reference::tally::{Entry, Tally, MOST_BYTES, NONE_REFUSED};
use std::fmt;

/// Where a tally that is given to a call comes from: calls from a new one, or anywhere.
#[derive(Clone, Copy, PartialEq, Eq)]
pub enum Origin {
    Calls,
    Outside,
}

#[derive(Clone, Copy)]
pub enum Outcome {
    AsSent,
    OneBitWrong,
    EveryBitWrong,
    NoBytes,
    MostBytes,
    FirstRefused,
    RefusedAgain,
    RefusedStays,
    WrongFramesStay,
    WrongBitsStay,
    LengthsDiffer,
    ReadTooLong,
    RefusedTooLong,
    NumberZero,
    FullByCalls,
    FullFromOutside,
    FullBeforeFrame,
    WorkedOut,
}

/// In the order of [`Outcome`].
const OUTCOMES: [&str; 18] = [
    "read as sent",
    "one bit wrong",
    "every bit wrong",
    "frames of 0 bytes",
    "frames of 7681 bytes",
    "first refused",
    "refused again",
    "refused stays at the largest",
    "wrong frames stay",
    "wrong bits stay",
    "11 for two lengths",
    "11 for frames that are too long",
    "11 for a refused symbol's that is too long",
    "11 for the number 0",
    "22 by calls alone",
    "22 of a tally from outside",
    "22 where 11 applies too",
    "figures worked out from the list",
];

/// How often each outcome came.
#[derive(Default)]
pub struct Tallied([u64; OUTCOMES.len()]);

impl Tallied {
    pub fn record(&mut self, outcome: Outcome) {
        self.0[outcome as usize] += 1;
    }

    /// What a call was that gave this number.
    pub fn record_call(&mut self, (before, origin): (&Tally, Origin), entry: &Entry, number: u32) {
        match number {
            FULL => self.record_full(origin, entry),
            FRAME => self.record(cause(entry)),
            _ => {
                let wrong_bits = entry.wrong_bits();
                self.record_entry(before, entry, wrong_bits);
                self.record_stays(before, entry, wrong_bits);
            }
        }
    }

    fn record_full(&mut self, origin: Origin, entry: &Entry) {
        self.record(match origin {
            Origin::Calls => Outcome::FullByCalls,
            Origin::Outside => Outcome::FullFromOutside,
        });
        if reference::tally_entry(&reference::tally_new(), entry).number == FRAME {
            self.record(Outcome::FullBeforeFrame);
        }
    }

    fn record_entry(&mut self, before: &Tally, entry: &Entry, wrong_bits: u32) {
        match entry {
            Entry::Read { sent, .. } => self.record_read(sent.len(), wrong_bits),
            Entry::Refused { .. } => self.record(match before.first_refused {
                NONE_REFUSED => Outcome::FirstRefused,
                _ => Outcome::RefusedAgain,
            }),
        }
    }

    fn record_read(&mut self, bytes: usize, wrong_bits: u32) {
        match wrong_bits as usize {
            0 => self.record(Outcome::AsSent),
            1 => self.record(Outcome::OneBitWrong),
            wrong if wrong == 8 * bytes => self.record(Outcome::EveryBitWrong),
            _ => {}
        }
        match bytes {
            0 => self.record(Outcome::NoBytes),
            MOST_BYTES => self.record(Outcome::MostBytes),
            _ => {}
        }
    }

    /// The figures that an accepted entry would raise above the largest.
    fn record_stays(&mut self, before: &Tally, entry: &Entry, wrong_bits: u32) {
        let refused = u32::from(entry.is_refused());
        let wrong_frames = u32::from(wrong_bits > 0);
        for (outcome, figure, by) in [
            (Outcome::RefusedStays, before.refused, refused),
            (Outcome::WrongFramesStay, before.wrong_frames, wrong_frames),
            (Outcome::WrongBitsStay, before.wrong_bits, wrong_bits),
        ] {
            if figure.checked_add(by).is_none() {
                self.record(outcome);
            }
        }
    }

    pub fn verdict(&self) -> Result<(), String> {
        match seen::never(&OUTCOMES, &self.0) {
            Some(outcome) => Err(format!("tallies: never {outcome}")),
            None => Ok(()),
        }
    }
}

/// Why 11 refuses an entry.
fn cause(entry: &Entry) -> Outcome {
    match entry {
        Entry::Read { sent, read } if sent.len() != read.len() => Outcome::LengthsDiffer,
        Entry::Read { .. } => Outcome::ReadTooLong,
        Entry::Refused { refusal: 0, .. } => Outcome::NumberZero,
        Entry::Refused { .. } => Outcome::RefusedTooLong,
    }
}

impl fmt::Display for Tallied {
    fn fmt(&self, f: &mut fmt::Formatter) -> fmt::Result {
        write!(f, "{}", seen::told(&OUTCOMES, &self.0))
    }
}
