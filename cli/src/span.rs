//! Where the bits of a frame stand in its bytes.

use crate::words::count;

/// The last bit of a byte: a frame starts there or before.
pub const LAST_START: u8 = 7;

/// L bits, the first of them at bit `start` of the first byte.
#[derive(Clone, Copy)]
pub struct Span {
    pub start: u8,
    pub size: u32,
}

impl Span {
    /// The bytes that hold it, whatever its start.
    pub fn bytes(self) -> usize {
        self.end().div_ceil(8) as usize
    }

    /// The bits of the last byte after its end.
    fn unused(self) -> u32 {
        self.end().next_multiple_of(8) - self.end()
    }

    fn end(self) -> u32 {
        u32::from(self.start) + self.size
    }

    /// "L = 5 bits in 1 byte", "L = 5 bits from bit 6 on, in 2 bytes"
    pub fn words(self) -> String {
        let from = match self.start {
            0 => String::new(),
            start => format!(" from bit {start} on,"),
        };
        let (size, bytes) = (count(self.size, "bit"), count(self.bytes(), "byte"));
        format!("L = {size}{from} in {bytes}")
    }

    /// The bits of these bytes before its start, those after its end, or both: where one is 1.
    pub fn outside(self, bytes: &[u8]) -> String {
        let first = bytes.first().copied().unwrap_or(0);
        let last = bytes.last().copied().unwrap_or(0);
        let (before, after) = (u32::from(self.start), self.unused());
        let mut wrong = Vec::new();
        if first.trailing_zeros() < before {
            wrong.push(match before {
                1 => "the lowest bit of the first byte comes before the start and must be 0"
                    .to_string(),
                _ => format!(
                    "the lower {before} bits of the first byte come before the start and must be 0"
                ),
            });
        }
        if last.leading_zeros() < after {
            wrong.push(match after {
                1 => "the upper bit of the last byte is not used and must be 0".to_string(),
                _ => format!("the upper {after} bits of the last byte are not used and must be 0"),
            });
        }
        wrong.join(", and ")
    }
}
