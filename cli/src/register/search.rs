//! The search for the register: each monitored tone gives two equations, and turned by half a turn
//! it gives their complements. docs/FIND-THE-REGISTER.md says why that settles the clip.

use super::equations::{Solutions, Sum, System};
use super::reach::{Reach, Seen};
use crate::ask::Order;
use crate::files::{PointList, TableSet};
use crate::way::Family;
use clevisroot_sys as library;
use clevisroot_sys::refusals::DONE;

/// The equations of the monitored tones, read both ways of a family: as if the points had come its
/// first way, and turned by half a turn from there.
#[derive(Clone, Debug)]
pub struct Search {
    family: Family,
    seen: Seen,
    first: System,
    other: System,
}

/// What the equations say.
#[derive(Clone, Copy, Debug, PartialEq, Eq)]
pub enum Found {
    /// The points came the family's first way, and this was the register before the first symbol.
    First(u32),
    /// They came its other way.
    Other(u32),
    /// Several registers fit, or one each way.
    Open,
    /// No register gives these points, either way.
    Neither,
}

impl Search {
    pub fn new(family: Family) -> Search {
        Search {
            family,
            seen: Seen::nothing(),
            first: System::default(),
            other: System::default(),
        }
    }

    /// Adds the monitored points of the next symbol. A point that is none of the four contradicts
    /// every register.
    pub fn add(&mut self, set: &TableSet, order: &Order, points: &PointList) {
        for (place, [v0, v1]) in self.seen.next_symbol(set, order) {
            let came = points.at(place).unwrap_or((0, 0));
            let (x, y) = self.family.first().undone(came, i16::saturating_neg);
            let read = library::read_point(2, x, y);
            self.add_bit(v0, read.label & 1 == 1);
            self.add_bit(v1, read.label >> 1 & 1 == 1);
            if read.number != DONE {
                self.first.add(0, true);
                self.other.add(0, true);
            }
        }
    }

    /// This filler bit was read so: turned, it is the other one.
    fn add_bit(&mut self, bit: Sum, value: bool) {
        self.first.add(bit, value);
        self.other.add(bit, !value);
    }

    /// What the monitored tones so far can tell, whatever their points.
    pub fn reach(&self) -> Reach {
        self.seen.reach()
    }

    /// The filler bits that were drawn so far.
    pub fn draws(&self) -> usize {
        self.seen.draws
    }

    pub fn found(&self) -> Found {
        match (self.first.solutions(), self.other.solutions()) {
            (Solutions::One(register), Solutions::None) => Found::First(register),
            (Solutions::None, Solutions::One(register)) => Found::Other(register),
            (Solutions::None, Solutions::None) => Found::Neither,
            _ => Found::Open,
        }
    }

    /// For each way of the family a register that fits the points, taken so, as far as any does.
    pub fn examples(&self) -> [Option<u32>; 2] {
        [self.first.example(), self.other.example()]
    }
}
