//! Which starts came with which frame sizes, and for what frames were refused.

use crate::seen;
use clevisroot_sys::refusals::DONE;
use clevisroot_sys::Answer;
use reference::forms::{frame_bytes, packed_bit, start_accepted};
use std::fmt;

/// How often calls were done from each start, 0 to 7.
#[derive(Default)]
pub struct Starts {
    /// By start and by the remainder of L by 8.
    done: [[u64; 8]; 8],
    /// By start, where L is 0.
    empty: [u64; 8],
}

impl Starts {
    pub fn record(&mut self, start: u8, told: &Answer) {
        if told.number == DONE {
            let start = usize::from(start);
            self.done[start][told.size as usize % 8] += 1;
            self.empty[start] += u64::from(told.size == 0);
        }
    }

    /// Every start came with every remainder, and with L = 0.
    pub fn verdict(&self, done: &str) -> Result<(), String> {
        for (start, (remainders, &empty)) in self.done.iter().zip(&self.empty).enumerate() {
            if let Some(remainder) = remainders.iter().position(|&count| count == 0) {
                return Err(format!(
                    "never {done} from start {start} with L = 8n + {remainder}"
                ));
            }
            if empty == 0 {
                return Err(format!("never {done} from start {start} with L = 0"));
            }
        }
        Ok(())
    }
}

impl fmt::Display for Starts {
    fn fmt(&self, f: &mut fmt::Formatter) -> fmt::Result {
        let fewest = self.done.iter().flatten().min().unwrap_or(&0);
        let fewest_empty = self.empty.iter().min().unwrap_or(&0);
        write!(f, "{fewest} and {fewest_empty}")
    }
}

/// How often encoding refused a frame for each of its faults, of which the first counts.
#[derive(Default)]
pub struct Causes([u64; 4]);

const CAUSES: [&str; 4] = [
    "start",
    "length",
    "bit before the start",
    "bit after the end",
];

impl Causes {
    /// A frame that is refused where L bits are asked for.
    pub fn record(&mut self, frame: &[u8], start: u8, l: usize) {
        let first = if !start_accepted(start) {
            0
        } else if frame.len() != frame_bytes(start, l) {
            1
        } else if (0..usize::from(start)).any(|k| packed_bit(frame, k)) {
            2
        } else {
            3
        };
        self.0[first] += 1;
    }

    pub fn verdict(&self) -> Result<(), String> {
        match seen::never(&CAUSES, &self.0) {
            Some(cause) => Err(format!("never a frame refused for its {cause}")),
            None => Ok(()),
        }
    }
}

impl fmt::Display for Causes {
    fn fmt(&self, f: &mut fmt::Formatter) -> fmt::Result {
        write!(f, "{}", seen::told(&CAUSES, &self.0))
    }
}
