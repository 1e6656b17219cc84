//! Which numbers came from which operation, and whether all that must come did.

use crate::clips::Clips;
use crate::decisions::Decisions;
use crate::quarters::Quarters;
use crate::starts::{Causes, Starts};
use crate::tallied::Tallied;
use clevisroot_sys::refusals::*;
use std::fmt;

#[derive(Clone, Copy, Debug, PartialEq, Eq)]
pub enum Operation {
    Check,
    Reorder,
    Encode,
    EncodeAt,
    Read,
    ReadAt,
    ReadNearest,
    ClipCheck,
    MapLabel,
    ReadPoint,
    PlainMapLabel,
    PlainReadPoint,
    Draw,
    TallyNew,
    TallyRead,
    TallyRefused,
}

use Operation::*;

const OPERATIONS: [Operation; 16] = [
    Check,
    Reorder,
    Encode,
    EncodeAt,
    Read,
    ReadAt,
    ReadNearest,
    ClipCheck,
    MapLabel,
    ReadPoint,
    PlainMapLabel,
    PlainReadPoint,
    Draw,
    TallyNew,
    TallyRead,
    TallyRefused,
];

/// How many numbers there are from DONE to the largest, unused ones included.
const NUMBERS: usize = RANGE as usize + 1;

impl Operation {
    /// The name after `clevisroot_`.
    pub fn name(self) -> &'static str {
        match self {
            Check => "check",
            Reorder => "reorder",
            Encode => "encode",
            EncodeAt => "encode_at",
            Read => "read",
            ReadAt => "read_at",
            ReadNearest => "read_nearest",
            ClipCheck => "clip_check",
            MapLabel => "map_label",
            ReadPoint => "read_point",
            PlainMapLabel => "plain_map_label",
            PlainReadPoint => "plain_read_point",
            Draw => "draw",
            TallyNew => "tally_new",
            TallyRead => "tally_read",
            TallyRefused => "tally_refused",
        }
    }

    /// Of its column: the name or a large count, and what keeps it from the one before.
    fn width(self) -> usize {
        self.name().len().max(8) + 2
    }

    /// The numbers that must turn up; no others may.
    fn numbers(self) -> Vec<u32> {
        match self {
            Check => (DONE..=FEW).collect(),
            Reorder => (DONE..=FEW).chain([ROOM]).collect(),
            Encode | EncodeAt => (DONE..=FEW).chain(ROOM..=SEED).collect(),
            Read => (DONE..=FEW).chain([ROOM]).chain(SEED..=TRELLIS).collect(),
            ReadAt => (DONE..=FEW).chain(ROOM..=TRELLIS).collect(),
            ReadNearest => (DONE..=FEW).chain(ROOM..=SEED).chain([RANGE]).collect(),
            ClipCheck => (DONE..=FEW).chain([ROOM, SEED]).collect(),
            MapLabel | PlainMapLabel => vec![DONE, LABEL],
            ReadPoint | PlainReadPoint => vec![DONE, OFFGRID, LABEL],
            Draw => vec![DONE, SEED],
            TallyNew => vec![DONE],
            TallyRead | TallyRefused => vec![DONE, FRAME, FULL],
        }
    }
}

#[derive(Default)]
pub struct Coverage {
    counts: Counts,
    /// Of symbols with a monitored tone behind a silent one.
    behind_silent: Counts,
    /// Of symbols that were done.
    pub encoded: Starts,
    pub read: Starts,
    pub nearest: Starts,
    /// Of frames that encoding refused.
    pub refused: Causes,
    pub decisions: Decisions,
    pub clips: Clips,
    pub quarters: Quarters,
    pub tallied: Tallied,
}

type Counts = [[u64; NUMBERS]; OPERATIONS.len()];

/// What must turn up where a monitored tone stands behind a silent one, which has drawn before it.
const BEHIND_SILENT: [(Operation, u32); 3] = [(EncodeAt, DONE), (ReadAt, DONE), (ReadAt, MONITOR)];

impl Coverage {
    pub fn record(&mut self, operation: Operation, number: u32) {
        self.counts[operation as usize][number as usize] += 1;
    }

    pub fn record_behind_silent(&mut self, operation: Operation, number: u32) {
        self.behind_silent[operation as usize][number as usize] += 1;
    }

    fn behind_silent(&self) -> [u64; 3] {
        BEHIND_SILENT
            .map(|(operation, number)| self.behind_silent[operation as usize][number as usize])
    }

    pub fn total(&self) -> u64 {
        self.counts.iter().flatten().sum()
    }

    /// Every number an operation can give turned up, and no other, and so did every outcome for a
    /// monitored tone behind a silent one, every start, every cause to refuse a frame, and every
    /// outcome of nearest reading, of the clip check, of quarter turns and of tallies.
    pub fn verdict(&self) -> Result<(), String> {
        for operation in OPERATIONS {
            for (number, &count) in (DONE..).zip(&self.counts[operation as usize]) {
                let came = count > 0;
                let can = operation.numbers().contains(&number);
                let told = format!("{number} {} came from {}", name(number), operation.name());
                if came && !can {
                    return Err(told);
                }
                if can && !came {
                    return Err(format!("never {told}"));
                }
            }
        }
        for ((operation, number), count) in BEHIND_SILENT.into_iter().zip(self.behind_silent()) {
            if count == 0 {
                let told = format!("{number} {} came from {}", name(number), operation.name());
                return Err(format!(
                    "never {told} for a monitored tone behind a silent one"
                ));
            }
        }
        self.encoded.verdict("encoded")?;
        self.read.verdict("read")?;
        self.nearest.verdict("read as the nearest")?;
        self.refused.verdict()?;
        self.decisions.verdict()?;
        self.clips.verdict()?;
        self.quarters.verdict()?;
        self.tallied.verdict()
    }
}

impl fmt::Display for Coverage {
    fn fmt(&self, f: &mut fmt::Formatter) -> fmt::Result {
        write!(f, "{:<11}", "")?;
        for operation in OPERATIONS {
            write!(f, "{:>1$}", operation.name(), operation.width())?;
        }
        for &(number, name) in ALL {
            write!(f, "\n{number:>2} {name:<8}")?;
            for operation in OPERATIONS {
                let count = self.counts[operation as usize][number as usize];
                let told = match count {
                    0 if !operation.numbers().contains(&number) => "-".to_string(),
                    _ => count.to_string(),
                };
                write!(f, "{told:>0$}", operation.width())?;
            }
        }
        let [encoded, read, monitor] = self.behind_silent();
        write!(
            f,
            "\na monitored tone behind a silent one: encoded {encoded}, read {read}, 14 MONITOR {monitor}"
        )?;
        write!(
            f,
            "\neach start with each remainder of L by 8, and with L = 0: \
             encoded {} times at least, read {}, read as the nearest {}",
            self.encoded, self.read, self.nearest
        )?;
        write!(f, "\nframes refused for their {}", self.refused)?;
        write!(f, "\nnearest reading: {}", self.decisions)?;
        write!(f, "\nthe clip check: {}", self.clips)?;
        write!(f, "\nquarter turns: {}", self.quarters)?;
        write!(f, "\ntallies: {}", self.tallied)
    }
}
