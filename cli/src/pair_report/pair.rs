//! A pair of which all symbols are counted.

use super::count::Count;
use super::source::Source;
use crate::facts::Facts;
use crate::span::Span;

pub struct Pair {
    pub name: String,
    pub source: Source,
    /// Where a table set is known.
    pub tables: Option<Facts>,
    pub count: Count,
}

impl Pair {
    /// The first symbol that was refused, and the number of its refusal.
    pub fn first_refused(&self) -> Option<(u32, u32)> {
        let number = self.count.first_number?;
        Some((self.count.tally.first_refused, number))
    }

    /// The bits of a frame, where a table set is known.
    pub fn span(&self) -> Option<Span> {
        let facts = self.tables.as_ref()?;
        Some(Span {
            start: self.source.start,
            size: facts.size,
        })
    }

    /// The name as a heading has it: two that differ early enough do not look alike.
    pub fn title(&self) -> String {
        const LONG: usize = 120;
        let mut letters = self.name.chars();
        let start: String = letters.by_ref().take(LONG).collect();
        match letters.next() {
            Some(_) => start + "\u{2026}",
            None => start,
        }
    }
}
