//! What the tones of the table sets carry.

use crate::peer;
use clevisroot_sys::Tables;
use difftest::random::Random;

/// What the tones carry.
#[derive(Clone, Copy)]
pub struct Load {
    pub name: &'static str,
    pub coded: u8,
    /// Bit counts from the first to the last, evenly.
    pub bits: (u8, u8),
    /// Whether one tone in two is silent, whatever the bit counts.
    pub half_silent: bool,
    pub monitored: Monitored,
    /// Table sets in turn, another for each symbol.
    pub sets: usize,
}

/// Which tones without bits are monitored; the others are silent.
#[derive(Clone, Copy, PartialEq, Eq)]
pub enum Monitored {
    Half,
    /// The last tone of t, whatever its bit count.
    LastOnly,
    Nothing,
}

pub const LOADS: [Load; 7] = [
    load("15 bits coded", 1, (15, 15)),
    UNCODED,
    MIXED,
    load("8 bits coded", 1, (8, 8)),
    load("2 bits coded", 1, (2, 2)),
    ROTATING,
    HALF_SILENT,
];
pub const MIXED: Load = load("0 to 15 bits coded", 1, (0, 15));
pub const UNCODED: Load = load("15 bits uncoded", 0, (15, 15));

/// So many table sets that the processor does not learn by heart which way a branch goes.
pub const ROTATING: Load = Load {
    name: "0 to 15, 64 sets in turn",
    sets: 64,
    ..MIXED
};

pub const HALF_SILENT: Load = Load {
    name: "0 to 15, 1 in 2 silent",
    half_silent: true,
    ..MIXED
};

const fn load(name: &'static str, coded: u8, bits: (u8, u8)) -> Load {
    Load {
        name,
        coded,
        bits,
        half_silent: false,
        monitored: Monitored::Half,
        sets: 1,
    }
}

pub struct OwnTables {
    pub coded: u8,
    pub bits: Vec<u8>,
    pub gains: Vec<u16>,
    pub tones: Vec<u16>,
}

impl OwnTables {
    /// So many tones in shuffled order. Of those without bits half are monitored, but for the tones
    /// that the load makes silent and what it says of monitored ones.
    pub fn random(random: &mut Random, load: Load, nsc: usize) -> OwnTables {
        let (first, last) = (usize::from(load.bits.0), usize::from(load.bits.1));
        let mut bits: Vec<u8> = (0..nsc).map(|_| random.within(first, last) as u8).collect();
        let has_gain = |&b: &u8| b > 0 || random.one_in(2);
        let gains = bits.iter().map(has_gain).map(|has| 512 * u16::from(has));
        let mut gains: Vec<u16> = gains.collect();
        if load.half_silent {
            for tone in (0..nsc).filter(|_| random.one_in(2)) {
                (bits[tone], gains[tone]) = (0, 0);
            }
        }
        let mut tones: Vec<u16> = (0..nsc as u16).collect();
        random.shuffle(&mut tones);
        let mut tables = OwnTables {
            coded: load.coded,
            bits,
            gains,
            tones,
        };
        tables.keep_monitored(load.monitored);
        tables
    }

    /// Makes the other tones without bits silent.
    fn keep_monitored(&mut self, monitored: Monitored) {
        if monitored == Monitored::Half {
            return;
        }
        for (gain, _) in self
            .gains
            .iter_mut()
            .zip(&self.bits)
            .filter(|(_, &b)| b == 0)
        {
            *gain = 0;
        }
        if let (Monitored::LastOnly, Some(&last)) = (monitored, self.tones.last()) {
            let last = usize::from(last);
            (self.bits[last], self.gains[last]) = (0, 512);
        }
    }

    /// t'.
    pub fn in_order(&self) -> impl Iterator<Item = u16> {
        let nsc = self.tones.len();
        let (mut tones, mut bits) = (vec![0; nsc], vec![0; nsc]);
        peer::reorder(self.lent(), &mut tones, &mut bits);
        tones.into_iter()
    }

    pub fn lent(&self) -> Tables<'_> {
        Tables {
            coded: self.coded,
            bits: &self.bits,
            gains: &self.gains,
            tones: &self.tones,
        }
    }
}
