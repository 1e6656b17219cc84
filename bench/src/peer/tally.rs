//! The pair report: wrong bits a word at a time.

use super::{FRAME, FULL};
use clevisroot_sys::{Tallied, Tally, MAX_FRAME, MAX_SYMBOLS, NONE_REFUSED};

pub fn tally_new() -> Tally {
    Tally {
        symbols: 0,
        refused: 0,
        wrong_frames: 0,
        wrong_bits: 0,
        first_refused: NONE_REFUSED,
    }
}

pub fn tally_read(tally: Tally, sent: &[u8], read: &[u8]) -> Tallied {
    if tally.symbols >= MAX_SYMBOLS {
        return refused(FULL, tally);
    }
    if sent.len() != read.len() || sent.len() > MAX_FRAME {
        return refused(FRAME, tally);
    }
    let wrong_bits = wrong_bits(sent, read);
    done(Tally {
        symbols: tally.symbols + 1,
        wrong_frames: tally.wrong_frames.saturating_add(u32::from(wrong_bits > 0)),
        wrong_bits: tally.wrong_bits.saturating_add(wrong_bits),
        ..tally
    })
}

pub fn tally_refused(tally: Tally, sent: &[u8], refusal: u32) -> Tallied {
    if tally.symbols >= MAX_SYMBOLS {
        return refused(FULL, tally);
    }
    if sent.len() > MAX_FRAME || refusal == 0 {
        return refused(FRAME, tally);
    }
    let first_refused = match tally.first_refused {
        NONE_REFUSED => tally.symbols,
        first => first,
    };
    done(Tally {
        symbols: tally.symbols + 1,
        refused: tally.refused.saturating_add(1),
        first_refused,
        ..tally
    })
}

fn done(tally: Tally) -> Tallied {
    Tallied { number: 0, tally }
}

fn refused(number: u32, tally: Tally) -> Tallied {
    Tallied { number, tally }
}

/// The bits that differ in two frames of one length.
fn wrong_bits(sent: &[u8], read: &[u8]) -> u32 {
    let (sent_words, sent_rest) = sent.as_chunks();
    let (read_words, read_rest) = read.as_chunks();
    let word = |&eight: &[u8; 8]| u64::from_le_bytes(eight);
    let words = sent_words.iter().map(word).zip(read_words.iter().map(word));
    let rest = sent_rest.iter().zip(read_rest);
    words
        .map(|(sent, read)| (sent ^ read).count_ones())
        .sum::<u32>()
        + rest
            .map(|(sent, read)| (sent ^ read).count_ones())
            .sum::<u32>()
}
