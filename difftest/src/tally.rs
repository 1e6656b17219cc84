//! The calls of a tally on both sides, and long runs of them.

use crate::compare::{Comparison, Mismatch};
use crate::coverage::Operation;
use crate::entries::random_entry;
use crate::random::Random;
use crate::tallied::{Origin, Outcome};
use clevisroot_sys::refusals::{DONE, FULL};
use clevisroot_sys::Tallied;
use reference::tally::{figures_of, Entry, Tally, MOST_BYTES, MOST_SYMBOLS};

impl Comparison<'_> {
    pub fn tally_new(&mut self) -> Result<Tally, Mismatch> {
        let told = reference::tally_new();
        let actual = self.core.tally_new();
        self.hold(Operation::TallyNew, DONE, &lent(&told), &actual, ())?;
        Ok(told)
    }

    /// Counts a symbol, and tells the number and the tally to go on with.
    pub fn tally_entry(
        &mut self,
        (before, origin): (&Tally, Origin),
        entry: &Entry,
    ) -> Result<(u32, Tally), Mismatch> {
        let told = reference::tally_entry(before, entry);
        let (number, after) = (told.number, told.contents.unwrap_or(*before));
        let tally = lent(&after);
        let expected = Tallied { number, tally };
        let (operation, actual) = match entry {
            Entry::Read { sent, read } => (
                Operation::TallyRead,
                self.core.tally_read(lent(before), sent, read),
            ),
            Entry::Refused { sent, refusal } => (
                Operation::TallyRefused,
                self.core.tally_refused(lent(before), sent, *refusal),
            ),
        };
        let tallied = &mut self.coverage.tallied;
        tallied.record_call((before, origin), entry, number);
        self.hold(operation, number, &expected, &actual, (before, entry))?;
        Ok((number, after))
    }

    /// The figures are those of the entries that were accepted since the last reset.
    fn hold_worked_out(&mut self, tally: &Tally, accepted: &[Entry]) -> Result<(), Mismatch> {
        self.coverage.tallied.record(Outcome::WorkedOut);
        let expected = figures_of(accepted);
        self.alike(Operation::TallyRead, &expected, tally, accepted.len())
    }
}

fn lent(tally: &Tally) -> clevisroot_sys::Tally {
    let Tally {
        symbols,
        refused,
        wrong_frames,
        wrong_bits,
        first_refused,
    } = *tally;
    clevisroot_sys::Tally {
        symbols,
        refused,
        wrong_frames,
        wrong_bits,
        first_refused,
    }
}

/// Calls from one reset to the next: some fill the tally and go on, others are followed by a reset
/// early.
const STRETCHES: [usize; 7] = [0, 1, 75_000, 10_000, 75_000, 300, 75_000];
const SHORT_STRETCHES: usize = 50;

/// After so many calls the figures are worked out from the list.
const WORKED_OUT: usize = 5000;

/// The run draws as no random case does.
const NO_CASE: u64 = u64::MAX;

/// One run of calls, with resets among them.
pub fn long_run(comparison: &mut Comparison, seed: u64) -> Result<(), Mismatch> {
    let random = &mut Random::for_case(seed, NO_CASE);
    for calls in STRETCHES {
        stretch(comparison, random, calls)?;
    }
    for _ in 0..SHORT_STRETCHES {
        let calls = random.below(200);
        stretch(comparison, random, calls)?;
    }
    Ok(())
}

fn stretch(comparison: &mut Comparison, random: &mut Random, calls: usize) -> Result<(), Mismatch> {
    let mut tally = comparison.tally_new()?;
    let mut accepted = Vec::new();
    for call in 1..=calls {
        let entry = random_entry(random);
        let (number, after) = comparison.tally_entry((&tally, Origin::Calls), &entry)?;
        tally = after;
        if number == DONE {
            accepted.push(entry);
        }
        if call % WORKED_OUT == 0 {
            comparison.hold_worked_out(&tally, &accepted)?;
        }
    }
    comparison.hold_worked_out(&tally, &accepted)
}

/// The largest figures that calls can reach: every bit of 65,535 longest frames is wrong.
pub fn largest_figures(comparison: &mut Comparison) -> Result<(), Mismatch> {
    let entry = Entry::Read {
        sent: vec![0; MOST_BYTES],
        read: vec![255; MOST_BYTES],
    };
    let mut tally = comparison.tally_new()?;
    for _ in 0..MOST_SYMBOLS {
        (_, tally) = comparison.tally_entry((&tally, Origin::Calls), &entry)?;
    }
    let (number, after) = comparison.tally_entry((&tally, Origin::Calls), &entry)?;
    let expected = (FULL, tally, 65_535 * 61_448);
    let actual = (number, after, after.wrong_bits);
    comparison.alike(Operation::TallyRead, &expected, &actual, ())
}
