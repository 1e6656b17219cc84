//! Lent buffers: filled with junk, between two guards that nobody may touch.

use crate::random::Random;

const GUARD: usize = 4;

#[derive(Clone)]
pub struct Lent<T> {
    whole: Vec<T>,
    len: usize,
}

/// What random junk can be made of.
pub trait Junk: Copy + PartialEq {
    fn junk(random: &mut Random) -> Self;
}

impl Junk for u8 {
    fn junk(random: &mut Random) -> u8 {
        random.word() as u8
    }
}

impl Junk for u16 {
    fn junk(random: &mut Random) -> u16 {
        random.word() as u16
    }
}

impl Junk for i16 {
    fn junk(random: &mut Random) -> i16 {
        random.word() as i16
    }
}

impl<T: Junk> Lent<T> {
    pub fn new(random: &mut Random, len: usize) -> Lent<T> {
        let junk = |_| T::junk(random);
        let whole = (0..len + 2 * GUARD).map(junk).collect();
        Lent { whole, len }
    }

    pub fn buffer(&mut self) -> &mut [T] {
        &mut self.whole[GUARD..GUARD + self.len]
    }

    /// The buffer and its guards after a call that writes these contents, or nothing.
    pub fn after(&self, contents: Option<&[T]>) -> Vec<T> {
        let mut whole = self.whole.clone();
        if let Some(contents) = contents {
            whole[GUARD..GUARD + self.len].copy_from_slice(contents);
        }
        whole
    }

    pub fn whole(&self) -> &[T] {
        &self.whole
    }
}
