//! A row a pair, for a spreadsheet: commas, and quotes as RFC 4180 has them.

use super::pair::Pair;
use super::rate::Rate;
use super::remarks::remarks;
use super::turned::turned;
use super::verdict::verdict;
use crate::refusal::title;

const HEADER: [&str; 14] = [
    "pair",
    "symbols",
    "refused",
    "wrong frames",
    "wrong bits",
    "bits read",
    "bits are",
    "wrong-bit rate",
    "first refused",
    "refusals",
    "table set",
    "verdict",
    "turned clip",
    "remarks",
];

pub fn rows(pairs: &[Pair]) -> String {
    let header = HEADER.map(str::to_string);
    let rows = pairs.iter().map(cells);
    let lines = [header].into_iter().chain(rows).map(|cells| line(&cells));
    lines.collect()
}

fn cells(pair: &Pair) -> [String; 14] {
    let tally = &pair.count.tally;
    let rate = Rate::of(pair);
    let refusals = pair.count.refusals.iter();
    let refusals: Vec<String> = refusals
        .map(|(&number, symbols)| format!("{symbols} with {}", title(number)))
        .collect();
    let first = pair.first_refused().map(|(symbol, _)| symbol.to_string());
    let tables = pair.tables.as_ref().map(|facts| facts.name.clone());
    [
        pair.name.clone(),
        tally.symbols.to_string(),
        tally.refused.to_string(),
        tally.wrong_frames.to_string(),
        tally.wrong_bits.to_string(),
        rate.bits.to_string(),
        rate.basis().to_string(),
        rate.value().unwrap_or_default(),
        first.unwrap_or_default(),
        refusals.join("; "),
        tables.unwrap_or_default(),
        verdict(pair),
        turned(pair).sentence,
        remarks(pair).join(" "),
    ]
}

fn line(cells: &[String]) -> String {
    let cells: Vec<String> = cells.iter().map(|cell| quoted(cell)).collect();
    cells.join(",") + "\n"
}

fn quoted(cell: &str) -> String {
    if cell.contains([',', '"', '\n', '\r']) {
        format!("\"{}\"", cell.replace('"', "\"\""))
    } else {
        cell.to_string()
    }
}
