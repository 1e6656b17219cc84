//! "Sizes and forms": the tables, the class of a tone, and frames as packed bits.

/// A place in t or t', counted from 0.
#[derive(Clone, Copy, Debug, PartialEq, Eq)]
pub struct Place(pub usize);

/// A sub-carrier index.
#[derive(Clone, Copy, Debug, PartialEq, Eq)]
pub struct Subcarrier(pub usize);

#[derive(Clone, Copy, Debug, PartialEq, Eq)]
pub enum Mode {
    Uncoded,
    Coded,
}

/// What a tone carries.
#[derive(Clone, Copy, Debug, PartialEq, Eq)]
pub enum Class {
    Data(usize),
    Monitored,
    Silent,
}

/// The mode and the three tables as a caller gives them: nothing is known of them yet.
#[derive(Clone, Debug)]
pub struct Tables {
    pub mode: Mode,
    pub bits: Vec<u8>,
    pub gains: Vec<u16>,
    pub tones: Vec<u16>,
}

impl Tables {
    /// G, the length of the bit table.
    pub fn g(&self) -> usize {
        self.bits.len()
    }

    /// NSC, the length of the tone table.
    pub fn nsc(&self) -> usize {
        self.tones.len()
    }

    /// The entry of t at a place.
    pub fn tone_at(&self, place: Place) -> Subcarrier {
        Subcarrier(usize::from(self.tones[place.0]))
    }

    /// The tones in t order.
    pub fn t(&self) -> Vec<Subcarrier> {
        (0..self.nsc()).map(|p| self.tone_at(Place(p))).collect()
    }

    pub fn bits_of(&self, tone: Subcarrier) -> usize {
        usize::from(self.bits[tone.0])
    }

    pub fn gain_of(&self, tone: Subcarrier) -> u16 {
        self.gains[tone.0]
    }

    pub fn class_of(&self, tone: Subcarrier) -> Class {
        match (self.bits_of(tone), self.gain_of(tone)) {
            (0, 0) => Class::Silent,
            (0, _) => Class::Monitored,
            (bits, _) => Class::Data(bits),
        }
    }
}

/// A frame starts at bit 0 to 7 of its first byte.
pub fn start_accepted(start: u8) -> bool {
    start <= 7
}

/// The bytes of a frame of L bits: (start + L)/8 rounded up, whatever the start.
pub fn frame_bytes(start: u8, l: usize) -> usize {
    (usize::from(start) + l).div_ceil(8)
}

/// Bit k of packed bytes: in byte k div 8, at weight 2 to the (k mod 8).
pub fn packed_bit(bytes: &[u8], k: usize) -> bool {
    bytes[k / 8] >> (k % 8) & 1 == 1
}

/// A frame of L bits is accepted when its start is, its length is exact, and the bits before the
/// start and after the end are 0.
pub fn frame_accepted(frame: &[u8], start: u8, l: usize) -> bool {
    let own = usize::from(start)..usize::from(start) + l;
    let zero_around = |k| own.contains(&k) || !packed_bit(frame, k);
    start_accepted(start)
        && frame.len() == frame_bytes(start, l)
        && (0..8 * frame.len()).all(zero_around)
}

/// The L bits of a frame, bit 0 first: bit k is the packed bit k plus the start.
pub fn bits_of_frame(frame: &[u8], start: u8, l: usize) -> Vec<bool> {
    let start = usize::from(start);
    (0..l).map(|k| packed_bit(frame, k + start)).collect()
}

/// The frame of a list of bits from this start, zeros around them.
pub fn frame_of_bits(bits: &[bool], start: u8) -> Vec<u8> {
    let mut frame = vec![0; frame_bytes(start, bits.len())];
    for (k, &bit) in bits.iter().enumerate() {
        if bit {
            let packed = k + usize::from(start);
            frame[packed / 8] += 1 << (packed % 8);
        }
    }
    frame
}
