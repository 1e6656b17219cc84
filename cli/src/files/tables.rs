//! A table set: the mode, the three tables, and the file's lines they came from.

use crate::index::{Place, Subcarrier};
use clevisroot_sys::Tables;
use std::fmt;

/// What a sub-carrier of the tone table carries.
#[derive(Clone, Copy, Debug, PartialEq, Eq, PartialOrd, Ord)]
pub enum Class {
    Data(u8),
    Monitored,
    Silent,
}

impl fmt::Display for Class {
    fn fmt(&self, f: &mut fmt::Formatter) -> fmt::Result {
        match self {
            Class::Data(1) => f.write_str("1 bit"),
            Class::Data(bits) => write!(f, "{bits} bits"),
            Class::Monitored => f.write_str("monitored"),
            Class::Silent => f.write_str("silent"),
        }
    }
}

pub struct TableSet {
    pub name: String,
    pub coded: bool,
    /// The line that says whether it is coded.
    pub mode_line: usize,
    bits: Vec<u8>,
    gains: Vec<u16>,
    tones: Vec<u16>,
    /// The line of each place in t.
    place_lines: Vec<usize>,
    /// The first line that fills each sub-carrier's bits and gain.
    carrier_lines: Vec<Option<usize>>,
}

/// A line of three numbers.
pub struct Entry {
    pub line: usize,
    pub tone: Subcarrier,
    pub bits: u8,
    pub gain: u16,
}

impl TableSet {
    /// No tones yet, and nothing on any sub-carrier.
    pub fn new(coded: bool, carriers: usize) -> TableSet {
        TableSet {
            name: String::new(),
            coded,
            mode_line: 0,
            bits: vec![0; carriers],
            gains: vec![0; carriers],
            tones: Vec::new(),
            place_lines: Vec::new(),
            carrier_lines: vec![None; carriers],
        }
    }

    /// Puts a tone at the end of t. Its bits and gain count if its sub-carrier exists and no
    /// earlier line has filled it.
    pub fn push_tone(&mut self, entry: &Entry) {
        self.tones.push(entry.tone.0);
        self.place_lines.push(entry.line);
        if self.line_of(entry.tone).is_none() {
            self.fill(entry);
        }
    }

    /// Fills the bits and the gain of a sub-carrier, if there is one.
    pub fn fill(&mut self, entry: &Entry) {
        let index = usize::from(entry.tone.0);
        if index < self.carriers() {
            self.bits[index] = entry.bits;
            self.gains[index] = entry.gain;
            self.carrier_lines[index] = Some(entry.line);
        }
    }

    /// The tables as the library takes them.
    pub fn lent(&self) -> Tables<'_> {
        Tables {
            coded: u8::from(self.coded),
            bits: &self.bits,
            gains: &self.gains,
            tones: &self.tones,
        }
    }

    /// G.
    pub fn carriers(&self) -> usize {
        self.bits.len()
    }

    /// NSC.
    pub fn tone_count(&self) -> usize {
        self.tones.len()
    }

    /// The tones in t order.
    pub fn tones(&self) -> impl Iterator<Item = Subcarrier> + '_ {
        self.tones.iter().map(|&tone| Subcarrier(tone))
    }

    pub fn tone_at(&self, place: Place) -> Option<Subcarrier> {
        self.tones.get(place.0).map(|&tone| Subcarrier(tone))
    }

    pub fn bits_of(&self, tone: Subcarrier) -> u8 {
        self.bits.get(usize::from(tone.0)).copied().unwrap_or(0)
    }

    pub fn gain_of(&self, tone: Subcarrier) -> u16 {
        self.gains.get(usize::from(tone.0)).copied().unwrap_or(0)
    }

    pub fn class_of(&self, tone: Subcarrier) -> Class {
        match (self.bits_of(tone), self.gain_of(tone)) {
            (0, 0) => Class::Silent,
            (0, _) => Class::Monitored,
            (bits, _) => Class::Data(bits),
        }
    }

    /// How many tones have a class that passes the test.
    pub fn count(&self, test: impl Fn(Class) -> bool) -> usize {
        self.tones()
            .filter(|&tone| test(self.class_of(tone)))
            .count()
    }

    pub fn line_of_place(&self, place: Place) -> Option<usize> {
        self.place_lines.get(place.0).copied()
    }

    /// The line that fills the sub-carrier's bits and gain.
    pub fn line_of(&self, tone: Subcarrier) -> Option<usize> {
        *self.carrier_lines.get(usize::from(tone.0))?
    }
}
