//! Request R-1, the plain rule: the points of b bits from those of b − 2 bits, down to 2, 3 or 5, which
//! have a figure, as 1 bit has. It shares only the type [`Point`] with [`crate::points`].

use crate::points::Point;

/// A row for each Y, the highest first, and in it the label at each X, the lowest first. Coordinates are
/// odd, so neighbours are 2 apart, and the middle is (0, 0).
type Figure = &'static [&'static [u8]];

/// No label stands there.
const NO: u8 = u8::MAX;

/// Figures 10-10, 10-9, 10-12 and 10-13 of G.993.2.
fn figure_of(b: usize) -> Option<Figure> {
    match b {
        1 => Some(&[&[NO, 0], &[1, NO]]),
        2 => Some(&[&[2, 0], &[3, 1]]),
        3 => Some(&[
            &[NO, NO, 5, NO],
            &[4, 2, 0, NO],
            &[NO, 3, 1, 7],
            &[NO, 6, NO, NO],
        ]),
        5 => Some(&[
            &[NO, 24, 26, 20, 22, NO],
            &[19, 9, 11, 1, 3, 17],
            &[18, 8, 10, 0, 2, 16],
            &[31, 13, 15, 5, 7, 29],
            &[30, 12, 14, 4, 6, 28],
            &[NO, 25, 27, 21, 23, NO],
        ]),
        _ => None,
    }
}

/// The labels of a figure, each with its point.
fn labels_in(figure: Figure) -> impl Iterator<Item = (usize, Point)> {
    let edge = figure.len() as i16 - 1;
    let odd = move |k: usize| 2 * k as i16 - edge;
    let rows = figure.iter().enumerate();
    let all = rows.flat_map(move |(down, row)| {
        let across = row.iter().enumerate();
        across.map(move |(right, &label)| (label, (odd(right), -odd(down))))
    });
    all.filter(|&(label, _)| label != NO)
        .map(|(label, point)| (usize::from(label), point))
}

/// Where 4n to 4n + 3 stand in their block, from 4n on: itself, above it, to its right, diagonal.
const BLOCK: [Point; 4] = [(0, 0), (0, 2), (2, 0), (2, 2)];

/// The point of a label of b bits.
pub fn point_of(b: usize, label: usize) -> Point {
    if let Some(figure) = figure_of(b) {
        let own = labels_in(figure).find(|&(other, _)| other == label);
        return own.expect("a figure has all its labels").1;
    }
    let (x, y) = point_of(b - 2, label / 4);
    let (right, up) = BLOCK[label % 4];
    (2 * x - 1 + right, 2 * y - 1 + up)
}

/// The label of b bits that has the point, if any has: tries each of the four places in a block, and asks
/// for the label of the point that such a block came from.
pub fn label_of(b: usize, (x, y): Point) -> Option<usize> {
    if let Some(figure) = figure_of(b) {
        let own = labels_in(figure).find(|&(_, other)| other == (x, y));
        return own.map(|(label, _)| label);
    }
    (0..4).find_map(|k| {
        let (right, up) = BLOCK[k];
        let n = label_of(b - 2, (before(x, right)?, before(y, up)?))?;
        Some(4 * n + k)
    })
}

/// The Z for which this coordinate is 2Z − 1 + step, if there is one.
fn before(coordinate: i16, step: i16) -> Option<i16> {
    let twice = i32::from(coordinate) + 1 - i32::from(step);
    (twice % 2 == 0).then_some((twice / 2) as i16)
}
