//! The register of a stream: symbols with few monitored tones wait until those of several together
//! give it.

use super::draws::after_draws;
use super::reach::{Reach, TONES_OF_STREAM};
use super::search::{Found, Search};
use crate::ask::Order;
use crate::files::{PointList, TableSet};
use crate::way::Family;
use std::collections::VecDeque;

/// A symbol with its number.
pub type Numbered = (usize, PointList);

/// A register that was found.
#[derive(Clone, Copy, Debug)]
pub struct FoundRegister {
    /// Before the symbol.
    pub register: u32,
    /// The monitored tones that gave it, and what they can tell.
    pub reach: Reach,
    /// They are enough to say that no symbol is missing between them.
    pub checked: bool,
}

/// A symbol that waits no longer, with its register unless it gives none, neither alone nor
/// together with its neighbours.
pub struct Settled {
    pub symbol: Numbered,
    pub found: Option<FoundRegister>,
}

pub struct Finder {
    /// The family of the ways that the symbols are taken in.
    pub family: Family,
    search: Search,
    waiting: VecDeque<Numbered>,
    /// Some symbols since the start did not fit together.
    contradicted: bool,
}

impl Finder {
    pub fn new(family: Family) -> Finder {
        Finder {
            family,
            search: Search::new(family),
            waiting: VecDeque::new(),
            contradicted: false,
        }
    }

    /// Takes the next symbol; tells what is settled.
    pub fn push(&mut self, set: &TableSet, order: &Order, symbol: Numbered) -> Vec<Settled> {
        let mut own = Search::new(self.family);
        own.add(set, order, &symbol.1);
        // If its own tones settle it, it needs no other, and without any none helps it.
        if own.reach().tones == 0 || own.reach().settles() {
            self.search = own;
            self.waiting.push_back(symbol);
            return self.settle(true);
        }
        self.search.add(set, order, &symbol.1);
        self.waiting.push_back(symbol);
        let mut settled = self.drop_contradicted(set, order);
        if self.search.reach().settles_stream() {
            settled.extend(self.settle(true));
        }
        settled
    }

    /// No symbol comes any more.
    pub fn finish(&mut self) -> Vec<Settled> {
        // Nothing is missing within one symbol, nor between several with so many tones.
        let whole = self.waiting.len() == 1 || self.search.reach().tones >= TONES_OF_STREAM;
        let settled = match self.contradicted {
            true => self.waiting.drain(..).map(alone).collect(),
            false => self.settle(whole),
        };
        *self = Finder::new(self.family);
        settled
    }

    /// Hands those that wait back with their registers, or each alone if they give none.
    fn settle(&mut self, checked: bool) -> Vec<Settled> {
        let (reach, found) = (self.search.reach(), self.search.found());
        let draws = self.search.draws() / self.waiting.len().max(1);
        self.search = Search::new(self.family);
        let symbols = self.waiting.drain(..);
        match found {
            Found::First(register) | Found::Other(register) => symbols
                .scan(register, |next, symbol| {
                    let register = *next;
                    *next = after_draws(register, draws);
                    let found = FoundRegister {
                        register,
                        reach,
                        checked,
                    };
                    Some(Settled {
                        symbol,
                        found: Some(found),
                    })
                })
                .collect(),
            Found::Open | Found::Neither => symbols.map(alone).collect(),
        }
    }

    /// While no register fits all that wait, the oldest waits no longer.
    fn drop_contradicted(&mut self, set: &TableSet, order: &Order) -> Vec<Settled> {
        let mut dropped = Vec::new();
        while self.search.found() == Found::Neither {
            let Some(oldest) = self.waiting.pop_front() else {
                break;
            };
            dropped.push(alone(oldest));
            self.contradicted = true;
            self.search = self.search_again(set, order);
        }
        dropped
    }

    /// The search of those that wait.
    fn search_again(&self, set: &TableSet, order: &Order) -> Search {
        let mut search = Search::new(self.family);
        for (_, points) in &self.waiting {
            search.add(set, order, points);
        }
        search
    }
}

fn alone(symbol: Numbered) -> Settled {
    Settled {
        symbol,
        found: None,
    }
}
