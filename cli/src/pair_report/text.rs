//! The report as text: a table with a row a pair, then what there is to say of each.

use super::pair::Pair;
use super::rate::Rate;
use super::refusals;
use super::remarks::remarks;
use super::turned::{turned, Turned};
use super::verdict::verdict;
use crate::words::count;

const HEADER: [&str; 7] = [
    "pair",
    "symbols",
    "refused",
    "wrong frames",
    "wrong bits",
    "rate",
    "first refused",
];

pub fn lines(pairs: &[Pair]) -> Vec<String> {
    let mut lines = table(pairs);
    for pair in pairs {
        lines.push(String::new());
        lines.extend(section(pair));
    }
    lines
}

fn table(pairs: &[Pair]) -> Vec<String> {
    let header = HEADER.map(str::to_string);
    let rows: Vec<[String; 7]> = [header]
        .into_iter()
        .chain(pairs.iter().map(cells))
        .collect();
    let width = |column: usize| {
        let lengths = rows.iter().map(|row| row[column].chars().count());
        lengths.fold(0, usize::max)
    };
    rows.iter().map(|row| line(row, width)).collect()
}

fn cells(pair: &Pair) -> [String; 7] {
    let tally = &pair.count.tally;
    let first = pair.first_refused();
    [
        pair.title(),
        tally.symbols.to_string(),
        tally.refused.to_string(),
        tally.wrong_frames.to_string(),
        tally.wrong_bits.to_string(),
        Rate::of(pair).marked("~").unwrap_or("none".to_string()),
        first.map_or("none".to_string(), |(symbol, _)| symbol.to_string()),
    ]
}

/// The name to the left, the figures to the right of their columns.
fn line(row: &[String; 7], width: impl Fn(usize) -> usize) -> String {
    let cell = |(column, text): (usize, &String)| {
        let width = width(column);
        match column {
            0 => format!("{text:<width$}"),
            _ => format!("{text:>width$}"),
        }
    };
    let cells: Vec<String> = row.iter().enumerate().map(cell).collect();
    cells.join("  ")
}

fn section(pair: &Pair) -> Vec<String> {
    let mut lines = vec![format!("{}: {}", pair.title(), pair.source.words())];
    lines.extend(table_words(pair));
    lines.push(rate_words(&Rate::of(pair)));
    for row in refusals::rows(&pair.count.refusals) {
        let symbols = count(row.symbols, "symbol");
        lines.push(format!(
            "refused: {symbols} with {}: {}",
            row.title, row.meaning
        ));
    }
    lines.push(verdict(pair));
    lines.extend(remarks(pair));
    let Turned { sentence, bold } = turned(pair);
    let note = if bold { "NOTE: " } else { "" };
    lines.push(format!("{note}{sentence}"));
    lines
}

/// What the table set is, where it is known.
fn table_words(pair: &Pair) -> Option<String> {
    let (facts, span) = (pair.tables.as_ref()?, pair.span()?);
    let (name, classes, span) = (&facts.name, facts.class_words(), span.words());
    Some(format!("tables {name}: {classes}; {span}"))
}

/// "wrong bits: 3 of 40 bits (5 a frame), rate 7.5e-2"
fn rate_words(rate: &Rate) -> String {
    let value = rate.marked("about ");
    let value = value.map(|value| format!(", rate {value}"));
    format!("wrong bits: {}{}", rate.words(), value.unwrap_or_default())
}
