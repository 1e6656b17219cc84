//! Request R-14, quarter turns: what exact reading answers to a written symbol that is turned by a quarter,
//! either way. It follows from the tables alone; nothing is read here.

use crate::forms::{Class, Place, Tables};
use crate::refusals::Refusal;
use crate::reordering::{nonzero_entries, reordered_bits};
use crate::symbol::classes;

/// The refusal that a tone's class gives, coded or not: OFFGRID at the first 1-bit tone in t'; with none,
/// MONITOR at the first monitored one.
pub fn refusal_by_a_tone(tables: &Tables) -> Option<Refusal> {
    let classes = classes(tables);
    let first = |class| classes.iter().position(|&other| other == class).map(Place);
    let one_bit = first(Class::Data(1)).map(Refusal::Offgrid);
    one_bit.or(first(Class::Monitored).map(Refusal::Monitor))
}

/// The refusal by the code: TRELLIS at pair 0 if N is odd, and if it is 4, so that pair 0 is one of the last
/// two; else at pair 1.
pub fn refusal_by_the_code(n: usize) -> Refusal {
    let first_pair = n % 2 == 1 || n == 4;
    Refusal::Trellis(usize::from(!first_pair))
}

/// The one refusal for accepted coded tables, whatever the frame.
pub fn quarter_refusal(tables: &Tables) -> Refusal {
    let n = nonzero_entries(&reordered_bits(tables));
    refusal_by_a_tone(tables).unwrap_or(refusal_by_the_code(n))
}
