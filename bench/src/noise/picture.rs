//! The curves as a picture, in the style of the tool's.

use super::curve::{Curve, Rate};
use super::line::{Rounding, BITS, TONES};
use std::fmt::Write;

const WIDTH: f64 = 960.0;
const HEIGHT: f64 = 616.0;
/// The edges of the plot, with what they stand for: decibels, and powers of ten of the share.
const LEFT: f64 = 88.0;
const RIGHT: f64 = 936.0;
const TOP: f64 = 152.0;
const BOTTOM: f64 = 552.0;
const DECIBELS: (f64, f64) = (8.0, 27.0);
const LOWEST_POWER: f64 = -5.0;

const STYLE: &str = "<style>
text{font-family:Helvetica,Arial,sans-serif;font-size:12px;fill:#000}
.title{font-size:18px;font-weight:bold}
.tick{font-size:11px}
.middle{text-anchor:middle}
.end{text-anchor:end}
path,rect{fill:none}
.frame{stroke:#000;stroke-width:1px}
.grid{stroke:#ddd;stroke-width:1px}
.coded{stroke:#000}
.uncoded{stroke:#888}
.thick{stroke-width:3px}
.thin{stroke-width:1.5px}
.dashed{stroke-dasharray:7 4}
.dotted{stroke-dasharray:2 3}
</style>
";

/// The whole picture.
pub fn draw(curves: &[Curve]) -> String {
    let mut svg = format!(
        "<svg xmlns=\"http://www.w3.org/2000/svg\" viewBox=\"0 0 {WIDTH} {HEIGHT}\" \
         width=\"{WIDTH}\" height=\"{HEIGHT}\" role=\"img\">\n\
         <title>Frames read wrong against noise, coded and uncoded</title>\n{STYLE}\
         <rect width=\"100%\" height=\"100%\" style=\"fill:#fff\"/>\n"
    );
    text(
        &mut svg,
        (24.0, 32.0),
        "title",
        "Frames read wrong against noise",
    );
    let symbols = format!(
        "symbols of {TONES} tones of {BITS} bits, coded and uncoded; Gaussian noise on every X and Y; points have odd coordinates"
    );
    text(&mut svg, (24.0, 54.0), "plain", &symbols);
    axes(&mut svg);
    for (row, curve) in curves.iter().enumerate() {
        let path = curve.rates.iter().map(place);
        line(&mut svg, curve, &path.collect::<Vec<_>>());
        let at = (
            24.0 + 300.0 * (row / 2) as f64,
            82.0 + 22.0 * (row % 2) as f64,
        );
        line(
            &mut svg,
            curve,
            &[(at.0, at.1 - 4.0), (at.0 + 44.0, at.1 - 4.0)],
        );
        text(&mut svg, (at.0 + 54.0, at.1), "plain", curve.way.name);
    }
    svg + "</svg>\n"
}

fn axes(svg: &mut String) {
    for decibels in DECIBELS.0 as i32..=DECIBELS.1 as i32 {
        let x = across(f64::from(decibels));
        path(svg, "grid", &[(x, TOP), (x, BOTTOM)]);
        text(
            svg,
            (x, BOTTOM + 18.0),
            "tick middle",
            &decibels.to_string(),
        );
    }
    for power in LOWEST_POWER as i32..=0 {
        let y = down(f64::from(power));
        path(svg, "grid", &[(LEFT, y), (RIGHT, y)]);
        let share = match power {
            0 => "all".to_string(),
            _ => format!("1 in {}", thousands(10_u32.pow(-power as u32))),
        };
        text(svg, (LEFT - 8.0, y + 4.0), "tick end", &share);
    }
    let corners = [
        (LEFT, TOP),
        (RIGHT, TOP),
        (RIGHT, BOTTOM),
        (LEFT, BOTTOM),
        (LEFT, TOP),
    ];
    path(svg, "frame", &corners);
    text(svg, (24.0, TOP - 14.0), "plain", "frames read wrong");
    let below = "distance of neighbouring points / standard deviation of the noise of a coordinate, in dB (less noise to the right)";
    text(svg, ((LEFT + RIGHT) / 2.0, BOTTOM + 44.0), "middle", below);
}

fn thousands(number: u32) -> String {
    match number {
        0..1000 => number.to_string(),
        _ => format!("{},{:03}", number / 1000, number % 1000),
    }
}

/// What the call reads is thick.
fn line(svg: &mut String, curve: &Curve, points: &[(f64, f64)]) {
    let mode = if curve.way.coded { "coded" } else { "uncoded" };
    let stroke = match (curve.way.coded, curve.way.rounding) {
        (false, Rounding::Odd) | (true, Rounding::Whole) => "thick",
        (_, Rounding::Odd) => "thin dotted",
        (_, Rounding::Doubt) => "thin",
        _ => "thin dashed",
    };
    path(svg, &format!("{mode} {stroke}"), points);
}

fn place(rate: &Rate) -> (f64, f64) {
    (across(rate.decibels), down(rate.share().log10()))
}

fn across(decibels: f64) -> f64 {
    let (first, last) = DECIBELS;
    LEFT + (RIGHT - LEFT) * (decibels - first) / (last - first)
}

fn down(power: f64) -> f64 {
    TOP + (BOTTOM - TOP) * power / LOWEST_POWER
}

fn path(svg: &mut String, class: &str, points: &[(f64, f64)]) {
    let places = points.iter().map(|(x, y)| format!("{x:.1} {y:.1}"));
    let places: Vec<String> = places.collect();
    let _ = writeln!(svg, "<path class=\"{class}\" d=\"M{}\"/>", places.join("L"));
}

fn text(svg: &mut String, (x, y): (f64, f64), class: &str, words: &str) {
    let _ = writeln!(
        svg,
        "<text x=\"{x:.1}\" y=\"{y:.1}\" class=\"{class}\">{words}</text>"
    );
}
