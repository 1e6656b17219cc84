//! Request R-12, "The pair report": the figures of a list of entries, and how one entry changes a tally
//! that may come with any figures.

use crate::refusals::{refuse_if, Refusal};

/// The most symbols that a tally holds; as the number of the first refused symbol, that none was.
pub const MOST_SYMBOLS: u32 = 65_535;
pub const NONE_REFUSED: u32 = 65_535;

/// The most bytes of a frame.
pub const MOST_BYTES: usize = 7681;

#[derive(Clone, Copy, Debug, PartialEq, Eq)]
pub struct Tally {
    pub symbols: u32,
    pub refused: u32,
    pub wrong_frames: u32,
    pub wrong_bits: u32,
    pub first_refused: u32,
}

/// One symbol: the frame that was sent, with the frame that was read or the refusal's number.
#[derive(Clone, Debug, PartialEq, Eq)]
pub enum Entry {
    Read { sent: Vec<u8>, read: Vec<u8> },
    Refused { sent: Vec<u8>, refusal: u32 },
}

impl Entry {
    pub fn is_refused(&self) -> bool {
        matches!(self, Entry::Refused { .. })
    }

    /// The ones in the exclusive-or of two frames of one length; a refused symbol has none.
    pub fn wrong_bits(&self) -> u32 {
        match self {
            Entry::Read { sent, read } => {
                let bytes = sent.iter().zip(read);
                bytes.map(|(sent, read)| (sent ^ read).count_ones()).sum()
            }
            Entry::Refused { .. } => 0,
        }
    }

    /// FRAME: two lengths that differ, a frame above 7,681 bytes, or the number 0.
    fn test_frame(&self) -> Result<(), Refusal> {
        let accepted = match self {
            Entry::Read { sent, read } => sent.len() == read.len() && sent.len() <= MOST_BYTES,
            Entry::Refused { sent, refusal } => sent.len() <= MOST_BYTES && *refusal != 0,
        };
        refuse_if(!accepted, Refusal::Frame)
    }
}

/// The figures of a list of at most 65,535 accepted entries.
pub fn figures_of(entries: &[Entry]) -> Tally {
    let figure = |count: usize| u32::try_from(count).expect("at most 65,535 entries");
    let wrong: Vec<u32> = entries.iter().map(Entry::wrong_bits).collect();
    let first_refused = entries.iter().position(Entry::is_refused);
    Tally {
        symbols: figure(entries.len()),
        refused: figure(entries.iter().filter(|entry| entry.is_refused()).count()),
        wrong_frames: figure(wrong.iter().filter(|&&bits| bits > 0).count()),
        wrong_bits: wrong.iter().sum(),
        first_refused: first_refused.map_or(NONE_REFUSED, figure),
    }
}

impl Tally {
    /// 22, then 11.
    pub fn test(&self, entry: &Entry) -> Result<(), Refusal> {
        refuse_if(self.symbols >= MOST_SYMBOLS, Refusal::Full)?;
        entry.test_frame()
    }

    /// The tally with an accepted entry more. A figure that would not fit stays at the largest.
    pub fn with(&self, entry: &Entry) -> Tally {
        let wrong_bits = entry.wrong_bits();
        let is_first = entry.is_refused() && self.first_refused == NONE_REFUSED;
        Tally {
            symbols: self.symbols + 1,
            refused: self.refused.saturating_add(u32::from(entry.is_refused())),
            wrong_frames: self.wrong_frames.saturating_add(u32::from(wrong_bits > 0)),
            wrong_bits: self.wrong_bits.saturating_add(wrong_bits),
            first_refused: if is_first {
                self.symbols
            } else {
                self.first_refused
            },
        }
    }
}
