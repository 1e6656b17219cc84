//! Entries of a tally, accepted or not, and tallies from outside.

use crate::random::Random;
use reference::tally::{Entry, Tally, MOST_BYTES, MOST_SYMBOLS};

/// A symbol that was read or refused, once in a while one that is no entry.
pub fn random_entry(random: &mut Random) -> Entry {
    let sent = random_sent(random);
    if random.one_in(3) {
        let refusal = random_refusal(random);
        return Entry::Refused { sent, refusal };
    }
    let read = random_read(random, &sent);
    Entry::Read { sent, read }
}

/// Bytes that are all 0, all ones, or any.
pub fn random_frame_of(random: &mut Random, bytes: usize) -> Vec<u8> {
    match random.below(8) {
        0 => vec![0; bytes],
        1 => vec![255; bytes],
        _ => (0..bytes).map(|_| random.word() as u8).collect(),
    }
}

fn random_sent(random: &mut Random) -> Vec<u8> {
    let bytes = random_length(random);
    random_frame_of(random, bytes)
}

/// Short for the most part, once in a while near a multiple of 16 or 256, any, or near the longest.
fn random_length(random: &mut Random) -> usize {
    match random.below(400) {
        0 => random.within(MOST_BYTES - 2, MOST_BYTES + 1),
        1 => random.within(0, MOST_BYTES),
        2..=10 => 256 * random.within(1, 3) + random.below(3) - 1,
        11..=60 => 16 * random.within(1, 6) + random.below(3) - 1,
        _ => random.below(24),
    }
}

/// What was read for a frame: the same, or wrong in one bit, a few, all or any, or of another length.
fn random_read(random: &mut Random, sent: &[u8]) -> Vec<u8> {
    match random.below(16) {
        0 => {
            let bytes = random_length(random);
            random_frame_of(random, bytes)
        }
        1 => sent.iter().map(|byte| !byte).collect(),
        2..=4 => with_wrong_bits(random, sent, 1),
        5..=6 => {
            let most = random.within(2, 9);
            with_wrong_bits(random, sent, most)
        }
        7..=10 => random_frame_of(random, sent.len()),
        _ => sent.to_vec(),
    }
}

/// A frame with at most so many bits turned over.
fn with_wrong_bits(random: &mut Random, sent: &[u8], most: usize) -> Vec<u8> {
    let mut read = sent.to_vec();
    if !read.is_empty() {
        for _ in 0..most {
            let k = random.below(8 * read.len());
            read[k / 8] ^= 1 << (k % 8);
        }
    }
    read
}

/// The number of a refusal, once in a while 0 or one that no call gives.
fn random_refusal(random: &mut Random) -> u32 {
    match random.below(12) {
        0 => 0,
        1 => random.word() as u32,
        2 => u32::MAX,
        _ => random.within(1, 24) as u32,
    }
}

/// A tally with any figures, of which most symbols are few enough.
pub fn random_tally(random: &mut Random) -> Tally {
    let symbols = match random.below(4) {
        0 => random_figure(random),
        1 => MOST_SYMBOLS - 1,
        _ => random.below(MOST_SYMBOLS as usize) as u32,
    };
    Tally {
        symbols,
        refused: random_figure(random),
        wrong_frames: random_figure(random),
        wrong_bits: random_figure(random),
        first_refused: random_figure(random),
    }
}

/// Often at or near 0, 65,535 and the largest.
fn random_figure(random: &mut Random) -> u32 {
    match random.below(10) {
        0 => 0,
        1..=2 => MOST_SYMBOLS,
        3 => random.within(65_533, 65_537) as u32,
        4..=5 => u32::MAX,
        6..=7 => u32::MAX - random.below(100) as u32,
        _ => random.word() as u32,
    }
}
