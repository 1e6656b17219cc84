//! What is drawn, and the size of the page.

use crate::ask::{Order, Points};
use crate::files::{PointList, TableSet};
use crate::index::Place;

pub const WIDTH: f64 = 960.0;
pub const MARGIN: f64 = 24.0;

pub struct Symbol<'a> {
    pub set: &'a TableSet,
    pub order: &'a Order,
    /// The points in t' order.
    pub x: &'a [i16],
    pub y: &'a [i16],
    /// The points as they were typed, if they were.
    pub typed: Option<&'a PointList>,
    /// The places that a reader refused.
    pub refused: &'a [Place],
    pub caption: String,
}

impl Symbol<'_> {
    /// A point in words: "(40000, 1)".
    pub fn words_at(&self, place: Place) -> String {
        let typed = self.typed.and_then(|typed| typed.words_at(place));
        let held = || {
            let coordinate = |list: &[i16]| list.get(place.0).copied().unwrap_or(0);
            format!("({}, {})", coordinate(self.x), coordinate(self.y))
        };
        typed.unwrap_or_else(held)
    }
}

/// A symbol as it was received, and what was decided.
pub struct Compared<'a> {
    pub symbol: Symbol<'a>,
    /// The points of the frame that was decided on.
    pub decided: &'a Points,
}
