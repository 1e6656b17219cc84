//! "The words of demand 3" and request R-14: turning point lists.

use crate::points::Point;

/// (−X, −Y) for (X, Y) at every place, whatever the tone's class.
pub fn half_turn(points: &[Point]) -> Vec<Point> {
    points
        .iter()
        .map(|&(x, y)| (x.wrapping_neg(), y.wrapping_neg()))
        .collect()
}

/// (−Y, X) for (X, Y) at every place: a quarter to the left.
pub fn quarter_left(points: &[Point]) -> Vec<Point> {
    points.iter().map(|&(x, y)| (y.wrapping_neg(), x)).collect()
}

/// (Y, −X) for (X, Y) at every place: a quarter to the right.
pub fn quarter_right(points: &[Point]) -> Vec<Point> {
    points.iter().map(|&(x, y)| (y, x.wrapping_neg())).collect()
}

/// X and Y as two lists.
pub fn lists_of(points: &[Point]) -> (Vec<i16>, Vec<i16>) {
    points.iter().copied().unzip()
}
