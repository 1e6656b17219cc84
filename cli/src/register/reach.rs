//! What the filler bits of a table set can tell, whatever they are: the tables alone decide that.
//! docs/FIND-THE-REGISTER.md has the reasons.

use super::equations::{Register, Sum, System, BITS};
use crate::ask::Order;
use crate::files::{Class, TableSet};
use crate::index::Place;

/// Fewer monitored tones never give the register: 11 give 22 equations for 23 bits. So many do, if no
/// silent tone stands between them.
pub const ENOUGH_TONES: usize = 12;

/// Symbols may be missing between two of a stream. 23 of the 64 filler bits of so many tones fix
/// the register, and the other 41 check that none is: by chance they fit once in 2 to the 40.
pub const TONES_OF_STREAM: usize = 32;

/// What goes with those numbers if these tables have silent tones.
pub fn or_a_few_more(set: &TableSet) -> &'static str {
    match set.count(|class| class == Class::Silent) {
        0 => "",
        _ => ", or a few more where silent tones stand between them",
    }
}

/// Why so many may not be enough.
pub const UNSEEN: &str = "silent tones between them draw filler bits that nobody sees";

/// What monitored tones can tell, whatever their points.
#[derive(Clone, Copy, Debug, Default, PartialEq, Eq)]
pub struct Reach {
    pub tones: usize,
    /// The rank of their equations: one register in 2 to the so many gives the same points.
    pub rank: usize,
    /// Points that some register gives, none gives the other way round.
    pub tells_way: bool,
}

impl Reach {
    /// Of one monitored tone alone: two draws in a row are independent of each other.
    pub const ONE_TONE: Reach = Reach {
        tones: 1,
        rank: 2,
        tells_way: false,
    };

    pub fn fixes_register(self) -> bool {
        self.rank == BITS
    }

    /// The register and the way round can be told, whatever they are.
    pub fn settles(self) -> bool {
        self.fixes_register() && self.tells_way
    }

    /// The same of several symbols, where one may be missing.
    pub fn settles_stream(self) -> bool {
        self.settles() && self.tones >= TONES_OF_STREAM
    }
}

/// The filler bits that are seen of symbols that follow each other, as sums of the bits that the
/// register had before the first.
#[derive(Clone, Debug)]
pub struct Seen {
    register: Register,
    /// Every bit that is seen is 1: so two registers differ that give the same points, the one
    /// straight and the other turned.
    apart: System,
    tones: usize,
    pub draws: usize,
}

impl Seen {
    pub fn nothing() -> Seen {
        Seen {
            register: Register::start(),
            apart: System::default(),
            tones: 0,
            draws: 0,
        }
    }

    /// Draws for the next symbol and tells the two bits of each monitored tone. A silent tone's are
    /// drawn too, and nobody sees them.
    pub fn next_symbol(&mut self, set: &TableSet, order: &Order) -> Vec<(Place, [Sum; 2])> {
        let mut seen = Vec::new();
        for (place, class) in order.without_bits(set) {
            let bits = [self.register.draw(), self.register.draw()];
            self.draws += bits.len();
            if class == Class::Monitored {
                self.tones += 1;
                bits.iter().for_each(|&bit| self.apart.add(bit, true));
                seen.push((place, bits));
            }
        }
        seen
    }

    pub fn reach(&self) -> Reach {
        Reach {
            tones: self.tones,
            rank: self.apart.rank(),
            tells_way: self.apart.is_contradicted(),
        }
    }
}

/// What the monitored tones of a table set can tell: those of one symbol, of two that follow each
/// other, of three, until they settle a stream. 24 symbols with a monitored tone always settle it.
pub struct Reaches(Vec<Reach>);

impl Reaches {
    pub fn of(set: &TableSet, order: &Order) -> Reaches {
        let mut seen = Seen::nothing();
        let mut reaches = Vec::new();
        while reaches.is_empty() || (seen.tones > 0 && !seen.reach().settles_stream()) {
            seen.next_symbol(set, order);
            reaches.push(seen.reach());
        }
        Reaches(reaches)
    }

    /// Of one symbol.
    pub fn alone(&self) -> Reach {
        self.0[0]
    }

    /// Of one symbol and of those right before it, which have so many monitored tones.
    pub fn after(&self, before: usize) -> Reach {
        let tones = before + self.alone().tones;
        let settled = self.0[self.0.len() - 1];
        let reach = self.0.iter().find(|reach| reach.tones == tones);
        Reach {
            tones,
            ..*reach.unwrap_or(&settled)
        }
    }
}
