//! Packed bits, a word at a time.

use super::FRAME_ROOM;

/// Bytes with room for a word past the largest frame. Source and sink borrow them, so that their
/// own few numbers stay in registers.
pub type Buffer = [u8; FRAME_ROOM];

/// The start is 0 to 7, the frame's length is exact, and the bits before the start and after the end
/// are 0.
pub fn frame_accepted(frame: &[u8], start: u8, l: usize) -> bool {
    let end = usize::from(start) + l;
    if start > 7 || frame.len() != end.div_ceil(8) {
        return false;
    }
    let zero_before = match frame.first() {
        Some(&first) => first & ((1 << start) - 1) == 0,
        None => true,
    };
    let zero_after = match frame.last() {
        Some(&last) if !end.is_multiple_of(8) => last >> (end % 8) == 0,
        _ => true,
    };
    zero_before && zero_after
}

/// Takes bits from the front.
pub struct Source<'a> {
    bytes: &'a Buffer,
    at: usize,
}

impl<'a> Source<'a> {
    /// The first bit that is taken is the one at the start.
    pub fn new(bytes: &'a Buffer, start: u8) -> Source<'a> {
        Source {
            bytes,
            at: usize::from(start),
        }
    }

    /// The next `count` bits, at most 32.
    #[inline(always)]
    pub fn take(&mut self, count: u32) -> u32 {
        let byte = self.at / 8;
        let eight = self.bytes[byte..byte + 8].try_into();
        let word = u64::from_le_bytes(eight.expect("eight bytes")) >> (self.at % 8);
        self.at += count as usize;
        (word & ((1 << count) - 1)) as u32
    }
}

/// Puts bits at the end; fewer than eight wait in `pending`.
pub struct Sink<'a> {
    bytes: &'a mut Buffer,
    full: usize,
    pending: u64,
    waiting: u32,
}

impl<'a> Sink<'a> {
    /// The bits before the start, at most 7, are 0.
    pub fn new(bytes: &'a mut Buffer, start: u8) -> Sink<'a> {
        Sink {
            bytes,
            full: 0,
            pending: 0,
            waiting: u32::from(start),
        }
    }

    /// Puts the low `count` bits, at most 32; the others are 0. A whole word is stored each time,
    /// so that nothing branches on how many bits wait.
    #[inline(always)]
    pub fn put(&mut self, value: u32, count: u32) {
        self.pending |= u64::from(value) << self.waiting;
        self.bytes[self.full..self.full + 8].copy_from_slice(&self.pending.to_le_bytes());
        let bits = self.waiting + count;
        self.full += (bits / 8) as usize;
        self.pending >>= bits & !7;
        self.waiting = bits % 8;
    }
}
