//! The picture of the strip. Height and hatching tell the columns apart, so that it needs no colour.

use super::count::Outcome;
use super::strip::Strip;
use crate::svg::{block, Pen};
use std::ops::Range;

const WIDTH: f64 = 720.0;
/// Room for half of the last number under the axis.
const MARGIN: f64 = 14.0;
/// Where the columns stand.
const BASE: f64 = 56.0;
const HEIGHT: f64 = 104.0;
/// A few symbols do not fill the sheet.
const WIDEST: f64 = 24.0;
/// Narrower columns do not stand apart.
const APART: f64 = 6.0;

/// Class and height of a column.
fn look(outcome: Outcome) -> (&'static str, f64) {
    match outcome {
        Outcome::AsSent => ("sent", 3.0),
        Outcome::WrongBits => ("wrong", 25.0),
        Outcome::Refused => ("refused", 50.0),
    }
}

/// What the legend says of it.
fn words(outcome: Outcome) -> &'static str {
    match outcome {
        Outcome::AsSent => "read as it was sent",
        Outcome::WrongBits => "read with wrong bits",
        Outcome::Refused => "refused",
    }
}

/// The strip with its axis and its legend.
pub fn draw(strip: &Strip) -> String {
    let mut pen = Pen::default();
    for outcome in [Outcome::Refused, Outcome::WrongBits, Outcome::AsSent] {
        let (class, height) = look(outcome);
        let bars = runs(strip)
            .into_iter()
            .filter(|run| strip.columns[run.start] == outcome)
            .map(|run| bar(strip, run, height));
        pen.path(class, &bars.collect::<String>());
    }
    draw_axis(&mut pen, strip);
    draw_legend(&mut pen, strip);
    let body = pen.finish();
    format!(
        "<svg viewBox=\"0 0 {WIDTH} {HEIGHT}\" role=\"img\">\n\
         <title>The symbols over time</title>\n{body}</svg>\n"
    )
}

/// Columns that are drawn as one: neighbours that are alike, unless they stand apart.
fn runs(strip: &Strip) -> Vec<Range<usize>> {
    let mut runs: Vec<Range<usize>> = Vec::new();
    let apart = width(strip) >= APART;
    for (index, column) in strip.columns.iter().enumerate() {
        match runs.last_mut() {
            Some(run) if !apart && strip.columns[run.start] == *column => run.end = index + 1,
            _ => runs.push(index..index + 1),
        }
    }
    runs
}

/// How wide a column is.
fn width(strip: &Strip) -> f64 {
    ((WIDTH - 2.0 * MARGIN) / strip.columns.len() as f64).min(WIDEST)
}

/// How long all columns are together.
fn length(strip: &Strip) -> f64 {
    width(strip) * strip.columns.len() as f64
}

fn bar(strip: &Strip, run: Range<usize>, height: f64) -> String {
    let width = width(strip);
    let gap = if width < APART { 0.0 } else { 0.15 * width };
    let left = MARGIN + width * run.start as f64;
    let length = width * run.len() as f64;
    block((left + gap / 2.0, BASE - height), (length - gap, height))
}

/// A tick and a number under some of the symbols.
fn draw_axis(pen: &mut Pen, strip: &Strip) {
    let length = length(strip);
    pen.line((MARGIN, BASE), (MARGIN + length, BASE), "axis");
    for symbol in (0..strip.symbols).step_by(step(strip)) {
        let x = MARGIN + length * (symbol as f64 + 0.5) / strip.symbols as f64;
        pen.line((x, BASE), (x, BASE + 4.0), "axis");
        pen.text((x, BASE + 15.0), "tick", &symbol.to_string());
    }
}

/// 1, 2 or 5 times a power of ten, so that the numbers under the strip stand apart.
fn step(strip: &Strip) -> usize {
    const MOST: f64 = 12.0;
    let digits = strip.symbols.to_string().len() as f64;
    let room = (length(strip) / (7.0 * digits + 12.0)).clamp(1.0, MOST);
    let mut steps = [1, 2, 5];
    while strip.symbols.div_ceil(steps[0]) as f64 > room {
        steps = [steps[1], steps[2], 10 * steps[0]];
    }
    steps[0]
}

fn draw_legend(pen: &mut Pen, strip: &Strip) {
    let bottom = HEIGHT - 8.0;
    for (outcome, x) in [
        (Outcome::Refused, MARGIN),
        (Outcome::WrongBits, MARGIN + 82.0),
        (Outcome::AsSent, MARGIN + 222.0),
    ] {
        let (class, height) = look(outcome);
        let height = 2.0 + height / 5.0;
        pen.path(class, &block((x, bottom - height), (10.0, height)));
        pen.text((x + 15.0, bottom), "key", words(outcome));
    }
    let columns = match strip.symbols_a_column() {
        most @ 2.. => format!("a column shows the worst of up to {most} symbols"),
        _ => "a column a symbol, counted from 0".to_string(),
    };
    pen.text((WIDTH - MARGIN, bottom), "key end", &columns);
}
