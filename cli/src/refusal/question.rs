//! What was asked when a refusal came.

use crate::files::{Frame, PointList, TableSet};
use crate::index::Place;

pub struct Question<'a> {
    pub set: &'a TableSet,
    pub frame: Option<&'a Frame>,
    pub points: Option<&'a PointList>,
    /// The one place whose point is looked at, where no other is.
    pub only: Option<Place>,
    /// The bit of its first byte at which the frame starts.
    pub start: u8,
    pub register: u32,
    /// The register as it was typed.
    pub typed: Option<&'a str>,
}

impl<'a> Question<'a> {
    /// A question about tables alone.
    pub fn of_tables(set: &'a TableSet) -> Question<'a> {
        Question {
            set,
            frame: None,
            points: None,
            only: None,
            start: 0,
            register: 0,
            typed: None,
        }
    }
}
