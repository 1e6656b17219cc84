//! The refusals of a pair by number, with their meaning: as many rows as a sheet has room for.

use super::meaning::meaning;
use crate::refusal::title;
use crate::words::count;
use clevisroot_sys::refusals::ALL;
use std::cmp::Reverse;
use std::collections::BTreeMap;

/// All refusals that calls give, and in the place of DONE one row for other numbers.
const MOST_ROWS: usize = ALL.len();

pub struct Row {
    /// "14 MONITOR"
    pub title: String,
    /// How many symbols were refused so.
    pub symbols: u32,
    pub meaning: &'static str,
}

/// A row a number, in the order of the numbers. Where there are too many, some share the last row:
/// numbers that no call gives, then those of the fewest symbols.
pub fn rows(refusals: &BTreeMap<u32, u32>) -> Vec<Row> {
    let mut numbers: Vec<(u32, u32)> = refusals.iter().map(|(&n, &symbols)| (n, symbols)).collect();
    let mut others = Vec::new();
    if numbers.len() > MOST_ROWS {
        let unknown = |number| !ALL.iter().any(|(known, _)| *known == number);
        numbers.sort_by_key(|&(number, symbols)| (unknown(number), Reverse(symbols), number));
        others = numbers.split_off(MOST_ROWS - 1);
        numbers.sort_unstable();
    }
    let row = |(number, symbols)| Row {
        title: title(number),
        symbols,
        meaning: meaning(number),
    };
    let mut rows: Vec<Row> = numbers.into_iter().map(row).collect();
    if !others.is_empty() {
        rows.push(Row {
            title: count(others.len(), "other number"),
            symbols: others.iter().map(|(_, symbols)| symbols).sum(),
            meaning: "not listed here",
        });
    }
    rows
}
