//! What came of nearest reading.

use crate::seen;
use std::fmt;

#[derive(Clone, Copy)]
pub enum Outcome {
    Read,
    ZeroUnread,
    Above0,
    Above32Bits,
    EveryFrameTried,
    SeveralNearest,
    RangeOfData,
    RangeOfMonitored,
    RangeOfSilent,
    RoomOfX,
    RoomOfY,
    RoomOfFrame,
    RoomOfWork,
}

/// In the order of [`Outcome`].
const OUTCOMES: [&str; 13] = [
    "read exactly too",
    "total 0, refused by exact reading",
    "total above 0",
    "total above 32 bits",
    "every frame tried",
    "several frames nearest",
    "23 at a tone with data",
    "23 at a monitored one",
    "23 at a silent one",
    "10 for x alone",
    "10 for y alone",
    "10 for the frame alone",
    "10 for the working buffer alone",
];

/// How often each outcome came.
#[derive(Default)]
pub struct Decisions([u64; OUTCOMES.len()]);

impl Decisions {
    pub fn record(&mut self, outcome: Outcome) {
        self.0[outcome as usize] += 1;
    }

    pub fn verdict(&self) -> Result<(), String> {
        match seen::never(&OUTCOMES, &self.0) {
            Some(outcome) => Err(format!("nearest reading: never {outcome}")),
            None => Ok(()),
        }
    }
}

impl fmt::Display for Decisions {
    fn fmt(&self, f: &mut fmt::Formatter) -> fmt::Result {
        write!(f, "{}", seen::told(&OUTCOMES, &self.0))
    }
}
