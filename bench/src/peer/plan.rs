//! What the places of t' carry, sorted by what is done with them.

use super::tables::Counts;
use super::MOST_TONES;
use clevisroot_sys::Tables;

pub struct Plan {
    pub coded: bool,
    pub nsc: usize,
    /// Tones with a re-ordered entry of their own, in t' order: coded, those of at least 2 bits.
    pub tones: usize,
    /// Re-ordered entries: one for each of the above, then, coded, one for two 1-bit tones.
    pub entries: usize,
    pub bits: [u8; MOST_TONES],
    pub places: [u16; MOST_TONES],
    /// Places without bits in t' order, twice the place and 1 more if it is monitored.
    unloaded: [u16; MOST_TONES],
    unloaded_count: usize,
}

impl Plan {
    pub fn new(tables: &Tables, counts: &Counts) -> Plan {
        let mut plan = Plan {
            coded: tables.coded != 0,
            nsc: tables.tones.len(),
            tones: 0,
            entries: 0,
            bits: [0; MOST_TONES],
            places: [0; MOST_TONES],
            unloaded: [0; MOST_TONES],
            unloaded_count: 0,
        };
        plan.sort_tones(tables);
        plan.entries = plan.tones;
        if plan.coded {
            plan.entries += counts.ones / 2;
            plan.bits[plan.tones..plan.entries].fill(2);
        }
        plan
    }

    /// Both lists are written at every tone and move on only where the tone belongs to them, so
    /// that nothing branches on the bit counts.
    fn sort_tones(&mut self, tables: &Tables) {
        let least = if self.coded { 2 } else { 1 };
        let (mut tones, mut unloaded, mut place) = (0, 0, 0);
        for &tone in tables.tones {
            let b = tables.bits[usize::from(tone)];
            let monitored = tables.gains[usize::from(tone)] > 0;
            self.bits[tones % MOST_TONES] = b;
            self.places[tones % MOST_TONES] = place;
            self.unloaded[unloaded % MOST_TONES] = place << 1 | u16::from(monitored);
            tones += usize::from(b >= least);
            unloaded += usize::from(b == 0);
            place += u16::from((b >= least) | (b == 0));
        }
        self.tones = tones;
        self.unloaded_count = unloaded;
    }

    /// Place of each tone without bits, and whether it is monitored.
    pub fn unloaded(&self) -> impl Iterator<Item = (usize, bool)> + '_ {
        let list = &self.unloaded[..self.unloaded_count];
        list.iter()
            .map(|&tone| (usize::from(tone >> 1), tone & 1 == 1))
    }

    /// The place of the first of the two 1-bit tones that share an entry, the second following.
    pub fn first_of_two(&self, entry: usize) -> usize {
        self.nsc - 2 * (self.entries - entry)
    }
}
