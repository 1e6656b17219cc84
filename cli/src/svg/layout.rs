//! Where the panels stand on the page.

use super::pen::Pair;
use super::symbol::{MARGIN, WIDTH};

/// Room for a panel's title above, its scale below and to the left.
const ABOVE: f64 = 26.0;
const BELOW: f64 = 40.0;
const LEFT: f64 = 34.0;
const RIGHT: f64 = 14.0;

/// The inside of a panel: its upper left corner and its side.
pub struct Square {
    pub corner: Pair,
    pub side: f64,
}

/// The panels of so many groups, from `top` down.
pub fn squares(groups: usize, top: f64) -> Vec<Square> {
    let (columns, side) = columns(groups);
    let square = |number: usize| {
        let (column, row) = (number % columns, number / columns);
        let corner = (
            MARGIN + column as f64 * width(columns) + LEFT,
            top + row as f64 * (ABOVE + side + BELOW) + ABOVE,
        );
        Square { corner, side }
    };
    (0..groups).map(square).collect()
}

/// Where the panels of so many groups end.
pub fn end(groups: usize, top: f64) -> f64 {
    let (columns, side) = columns(groups);
    top + groups.div_ceil(columns) as f64 * (ABOVE + side + BELOW)
}

/// Three large panels in a row, or 4 or 5, whichever leaves fewer gaps; and the side of each.
fn columns(groups: usize) -> (usize, f64) {
    let gaps = |columns: usize| groups.next_multiple_of(columns) - groups;
    let columns = match groups {
        0..=3 => 3,
        _ if gaps(4) < gaps(5) => 4,
        _ => 5,
    };
    (columns, (width(columns) - LEFT - RIGHT).min(230.0))
}

fn width(columns: usize) -> f64 {
    (WIDTH - 2.0 * MARGIN) / columns as f64
}
