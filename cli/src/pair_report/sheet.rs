//! One pair on one sheet of the page.

use super::pair::Pair;
use super::rate::Rate;
use super::refusals::{self, Row};
use super::remarks::remarks;
use super::strip::Strip;
use super::strip_picture;
use super::turned::{turned, Turned};
use super::verdict::verdict;
use crate::svg::escaped;
use crate::words::shortened;

/// More rows of refusals are printed small and close, so that they fit the sheet.
const FEW: usize = 8;

/// The letters of a name that fit a line or two of large type.
const SHORT: usize = 60;

pub fn sheet(pair: &Pair) -> String {
    let rows = refusals::rows(&pair.count.refusals);
    let many = marked("many", rows.len() > FEW);
    format!(
        "<section{many}>\n<p class=\"kind\">Pair report</p>\n{}\
         <p class=\"verdict\">{}</p>\n{}{}{}{}{}{HANDS}{}</section>\n",
        heading(pair),
        escaped(&verdict(pair)),
        remarked(pair),
        figures(pair),
        symbols(pair),
        refused(&rows),
        facts(pair),
        footer(pair)
    )
}

/// A class, where it is wanted.
fn marked(class: &str, wanted: bool) -> String {
    if wanted {
        format!(" class=\"{class}\"")
    } else {
        String::new()
    }
}

fn heading(pair: &Pair) -> String {
    let title = pair.title();
    let long = marked("long", title.chars().count() > SHORT);
    format!("<h1{long}>{}</h1>\n", escaped(&title))
}

/// The remarks, and what is to say of a turned clip.
fn remarked(pair: &Pair) -> String {
    let paragraph = |sentence: &String| format!("<p>{}</p>\n", escaped(sentence));
    let remarks: String = remarks(pair).iter().map(paragraph).collect();
    let Turned { sentence, bold } = turned(pair);
    let turned = match bold {
        true => format!(
            "<p class=\"warning\"><strong>{}</strong></p>\n",
            escaped(&sentence)
        ),
        false => paragraph(&sentence),
    };
    remarks + &turned
}

/// The five figures and the rate.
fn figures(pair: &Pair) -> String {
    let tally = &pair.count.tally;
    let rate = Rate::of(pair);
    let first = pair.first_refused().map(|(symbol, _)| symbol.to_string());
    let cells = [
        ("symbols", tally.symbols.to_string()),
        ("refused", tally.refused.to_string()),
        ("wrong frames", tally.wrong_frames.to_string()),
        ("wrong bits", tally.wrong_bits.to_string()),
        ("first refused", first.unwrap_or("none".to_string())),
        (
            "wrong-bit rate",
            rate.marked("\u{2248} ").unwrap_or("none".to_string()),
        ),
    ];
    let heads: String = cells
        .iter()
        .map(|(head, _)| format!("<th>{head}</th>"))
        .collect();
    let cells: String = cells
        .iter()
        .map(|(_, cell)| format!("<td>{cell}</td>"))
        .collect();
    format!(
        "<table class=\"figures\">\n<tr>{heads}</tr>\n<tr>{cells}</tr>\n</table>\n\
         <p class=\"small\">Wrong bits: {}; only frames that were read count. Symbols count from 0.</p>\n",
        rate.words()
    )
}

fn symbols(pair: &Pair) -> String {
    if pair.count.outcomes.is_empty() {
        return String::new();
    }
    let picture = strip_picture::draw(&Strip::of(&pair.count.outcomes));
    format!("<h2>The symbols over time</h2>\n{picture}")
}

/// The refusals by number, with their meaning.
fn refused(rows: &[Row]) -> String {
    let row = |row: &Row| {
        let Row {
            title,
            symbols,
            meaning,
        } = row;
        format!("<tr><td>{title}</td><td>{symbols}</td><td>{meaning}</td></tr>\n")
    };
    let rows: String = rows.iter().map(row).collect();
    let table = match rows.as_str() {
        "" => "<p>None.</p>\n".to_string(),
        rows => format!(
            "<table class=\"refusals\">\n<tr><th>refusal</th><th>symbols</th><th>meaning</th></tr>\n\
             {rows}</table>\n"
        ),
    };
    format!("<h2>Refusals</h2>\n{table}")
}

/// Where the symbols come from, and what the table set is.
fn facts(pair: &Pair) -> String {
    let mut rows = pair.source.rows();
    match (&pair.tables, pair.span()) {
        (Some(facts), Some(span)) => rows.extend([
            ("table set", shortened(&facts.name)),
            ("its tones", facts.class_words()),
            ("tones by bits", facts.loading_words()),
            ("a frame", span.words()),
        ]),
        _ => rows.push(("table set", "none is named".to_string())),
    }
    let row = |(head, words): &(&str, String)| {
        format!("<tr><th>{head}</th><td>{}</td></tr>\n", escaped(words))
    };
    let rows: String = rows.iter().map(row).collect();
    format!("<h2>Log and table set</h2>\n<table class=\"facts\">\n{rows}</table>\n")
}

/// What is filled in by hand.
const HANDS: &str = "<div class=\"hands\"><span>Place</span><span>Date</span>\
                     <span>Signature of the jointer</span></div>\n";

fn footer(pair: &Pair) -> String {
    let (given, it) = match pair.source.read {
        Some(_) => ("symbols in the files above", "them"),
        None => ("entries in the log", "it"),
    };
    format!(
        "<footer>The five figures are counted by the library of clevisroot {}, which is proved. They \
         are those of the {given}; nothing is known of what is not in {it}.</footer>\n",
        env!("CARGO_PKG_VERSION")
    )
}
