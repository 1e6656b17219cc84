//! The wrong-bit rate: wrong bits over the bits of the frames that were read.

use super::pair::Pair;
use crate::words::count;

pub struct Rate {
    wrong: u32,
    /// The bits of the frames that were read.
    pub bits: u64,
    /// L, where a table set tells it. Else every bit of a byte counts, used or not.
    size: Option<u32>,
}

impl Rate {
    pub fn of(pair: &Pair) -> Rate {
        let counted = &pair.count;
        let size = pair.tables.as_ref().map(|facts| facts.size);
        let bits = match size {
            Some(size) => u64::from(size) * u64::from(counted.read()),
            None => 8 * counted.bytes_read,
        };
        let wrong = counted.tally.wrong_bits;
        Rate { wrong, bits, size }
    }

    /// "1.2e-3", or "0"; none where no bit was read.
    pub fn value(&self) -> Option<String> {
        match (self.bits, self.wrong) {
            (0, _) => None,
            (_, 0) => Some("0".to_string()),
            (bits, wrong) => Some(format!("{:.1e}", f64::from(wrong) / bits as f64)),
        }
    }

    /// The same with "about" in front, in this form, where L is not known: some of a byte's bits may
    /// not be used.
    pub fn marked(&self, about: &str) -> Option<String> {
        let mark = match (self.size, self.wrong) {
            (None, 1..) => about,
            _ => "",
        };
        self.value().map(|value| format!("{mark}{value}"))
    }

    /// "3 of 40 bits (5 a frame)", "3 of 64 bits (8 a byte, L is not known)"
    pub fn words(&self) -> String {
        let of = format!("{} of {}", self.wrong, count(self.bits, "bit"));
        match self.size {
            _ if self.bits == 0 => "none, for no bit was read".to_string(),
            Some(size) => format!("{of} ({size} a frame)"),
            None => format!("{of} (8 a byte, L is not known)"),
        }
    }

    /// What the bits of a frame are.
    pub fn basis(&self) -> &'static str {
        match self.size {
            Some(_) => "L a frame",
            None => "8 a byte",
        }
    }
}
