//! The pairs, each as one word u with u0 at weight 1.

use super::bits::{Sink, Source};

/// S3 S2 S1 S0 as a number.
#[derive(Clone, Copy)]
pub struct State(pub u32);

impl State {
    /// u2 u1 as the last two pairs must have them: S2 and S1 xor S3.
    #[inline(always)]
    fn forced(self) -> u32 {
        let State(s) = self;
        (s >> 1 ^ s >> 3) & 1 | s >> 1 & 2
    }

    #[inline(always)]
    pub fn s0(self) -> u32 {
        self.0 & 1
    }

    /// T3 and T2 are S1 and S0, T1 and T0 tell how u2 and u1 differ from the forced ones.
    #[inline(always)]
    pub fn next(self, u2_u1: u32) -> State {
        State(self.0 << 2 & 12 | self.forced() ^ u2_u1)
    }
}

/// w1 w0 v1 v0 for u3 u2 u1 u0.
pub static LABEL_BITS: [u8; 16] = label_bits();
/// The inverse: u3 u2 u1 u0 for w1 w0 v1 v0.
static WORD_BITS: [u8; 16] = word_bits();

const fn label_bits() -> [u8; 16] {
    let mut rows = [0; 16];
    let mut u = 0;
    while u < 16 {
        let (u0, u1, u2, u3) = (u & 1, u >> 1 & 1, u >> 2 & 1, u >> 3);
        let (v0, v1, w0, w1) = (u3, u1 ^ u3, u2 ^ u3, u0 ^ u1 ^ u2 ^ u3);
        rows[u as usize] = w1 << 3 | w0 << 2 | v1 << 1 | v0;
        u += 1;
    }
    rows
}

const fn word_bits() -> [u8; 16] {
    let rows = label_bits();
    let mut inverse = [0; 16];
    let mut u = 0;
    while u < 16 {
        inverse[rows[u] as usize] = u as u8;
        u += 1;
    }
    inverse
}

/// The labels v and w of a word u.
#[inline(always)]
fn labels_of(x: u32, u: u32) -> [u16; 2] {
    let low = u32::from(LABEL_BITS[(u & 15) as usize]);
    let rest = u >> 4;
    let v = low & 3 | (rest & ((1 << (x - 2)) - 1)) << 2;
    let w = low >> 2 | rest >> (x - 2) << 2;
    [v as u16, w as u16]
}

/// The word u of the labels v and w.
#[inline(always)]
fn word_of(x: u32, [v, w]: [u16; 2]) -> u32 {
    let (v, w) = (u32::from(v), u32::from(w));
    let low = u32::from(WORD_BITS[(v & 3 | (w & 3) << 2) as usize]);
    low | (v >> 2 | w >> 2 << (x - 2)) << 4
}

/// The entries cut as the code pairs them: the lone first one if their count is odd, the pairs
/// that are free, and the last two.
fn cut<T>(entries: &[T]) -> (Option<&T>, &[T], &[T]) {
    let (first, paired) = entries.split_at(entries.len() % 2);
    let (free, last) = paired.split_at(paired.len() - 4);
    (first.first(), free, last)
}

/// Writes the label of every entry, at least four of them.
pub fn encode(bits: &[u8], source: &mut Source, labels: &mut [u16]) {
    let (first, free, last) = cut(bits);
    let (first_label, paired) = labels.split_at_mut(bits.len() % 2);
    let (free_labels, last_labels) = paired.split_at_mut(free.len());
    let mut state = State(0);
    if let Some(&y) = first {
        let taken = source.take(u32::from(y) - 1);
        let u2 = taken & 1;
        first_label[0] = ((3 * u2) | (taken >> 1 << 2)) as u16;
        state = state.next(u2 << 1);
    }
    for (pair, out) in free.chunks_exact(2).zip(free_labels.chunks_exact_mut(2)) {
        let (x, y) = (u32::from(pair[0]), u32::from(pair[1]));
        let u = source.take(x + y - 1) << 1 | state.s0();
        out.copy_from_slice(&labels_of(x, u));
        state = state.next(u >> 1 & 3);
    }
    for (pair, out) in last.chunks_exact(2).zip(last_labels.chunks_exact_mut(2)) {
        let (x, y) = (u32::from(pair[0]), u32::from(pair[1]));
        let forced = state.forced();
        let u = source.take(x + y - 3) << 3 | forced << 1 | state.s0();
        out.copy_from_slice(&labels_of(x, u));
        state = state.next(forced);
    }
}

/// Puts the frame bits of the labels, or tells the first pair that breaks the code.
pub fn read(bits: &[u8], labels: &[u16], sink: &mut Sink) -> Result<(), usize> {
    let (first, free, last) = cut(bits);
    let (first_label, free_labels, last_labels) = cut(labels);
    let mut state = State(0);
    if let (Some(&y), Some(&w)) = (first, first_label) {
        let w = u32::from(w);
        if (w ^ w >> 1) & 1 != 0 {
            return Err(0);
        }
        sink.put(w & 1 | w >> 2 << 1, u32::from(y) - 1);
        state = state.next((w & 1) << 1);
    }
    let mut number = bits.len() % 2;
    for (pair, label) in free.chunks_exact(2).zip(free_labels.chunks_exact(2)) {
        let (x, y) = (u32::from(pair[0]), u32::from(pair[1]));
        let u = word_of(x, [label[0], label[1]]);
        if u & 1 != state.s0() {
            return Err(number);
        }
        sink.put(u >> 1, x + y - 1);
        state = state.next(u >> 1 & 3);
        number += 1;
    }
    for (pair, label) in last.chunks_exact(2).zip(last_labels.chunks_exact(2)) {
        let (x, y) = (u32::from(pair[0]), u32::from(pair[1]));
        let u = word_of(x, [label[0], label[1]]);
        if u & 7 != state.forced() << 1 | state.s0() {
            return Err(number);
        }
        sink.put(u >> 3, x + y - 3);
        state = state.next(u >> 1 & 3);
        number += 1;
    }
    Ok(())
}
