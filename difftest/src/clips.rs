//! What came of the clip check.

use crate::seen;
use reference::clip::Clip;
use std::fmt;

#[derive(Clone, Copy)]
pub enum Outcome {
    Straight,
    Turned,
    Neither,
    CantTell,
    ReadAsItIs,
    ReadTurned,
    OthersChanged,
    BehindSilent,
    OnesBeforeInT,
    MonitoredBehind,
    RoomOfX,
    RoomOfY,
    RoomBeforeSeed,
}

/// In the order of [`Outcome`].
const OUTCOMES: [&str; 13] = [
    "straight",
    "turned",
    "neither",
    "can't tell",
    "read as it is",
    "read with all signs changed",
    "straight or turned where no reading is accepted",
    "a silent tone before it",
    "a 1-bit tone before it in t",
    "another monitored one behind it",
    "10 for x alone",
    "10 for y alone",
    "10 where 12 applies too",
];

/// How often each outcome came.
#[derive(Default)]
pub struct Clips([u64; OUTCOMES.len()]);

impl Clips {
    pub fn record(&mut self, outcome: Outcome) {
        self.0[outcome as usize] += 1;
    }

    pub fn record_if(&mut self, came: bool, outcome: Outcome) {
        if came {
            self.record(outcome);
        }
    }

    pub fn record_clip(&mut self, clip: Clip) {
        self.record(match clip {
            Clip::Straight => Outcome::Straight,
            Clip::Turned => Outcome::Turned,
            Clip::Neither => Outcome::Neither,
            Clip::CantTell => Outcome::CantTell,
        });
    }

    pub fn verdict(&self) -> Result<(), String> {
        match seen::never(&OUTCOMES, &self.0) {
            Some(outcome) => Err(format!("the clip check: never {outcome}")),
            None => Ok(()),
        }
    }
}

impl fmt::Display for Clips {
    fn fmt(&self, f: &mut fmt::Formatter) -> fmt::Result {
        write!(f, "{}", seen::told(&OUTCOMES, &self.0))
    }
}
