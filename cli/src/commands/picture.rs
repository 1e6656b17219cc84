//! The picture of a symbol, as `--svg` wants it.

use super::reading::Tables;
use crate::ask::Points;
use crate::files::PointList;
use crate::index::Place;
use crate::refusal::{refused_places, Refusal};
use crate::svg::{self, Compared, Symbol};
use clevisroot_sys::Answer;

/// What a picture is made of.
pub struct Picture<'a> {
    pub tables: &'a Tables,
    pub x: &'a [i16],
    pub y: &'a [i16],
    /// The points as they were typed, if they were.
    pub typed: Option<&'a PointList>,
    pub answer: &'a Answer,
}

impl Picture<'_> {
    /// The picture of the points, with the places that were refused.
    pub fn draw(&self, caption: String) -> String {
        let Tables { set, order, .. } = self.tables;
        let refused = refused_places(set, order, self.answer);
        svg::draw(&self.symbol(&refused, caption))
    }

    /// The picture of received points beside the decided ones.
    pub fn draw_compared(&self, decided: &Points, caption: String) -> String {
        svg::draw_compared(&Compared {
            symbol: self.symbol(&[], caption),
            decided,
        })
    }

    fn symbol<'b>(&'b self, refused: &'b [Place], caption: String) -> Symbol<'b> {
        Symbol {
            set: &self.tables.set,
            order: &self.tables.order,
            x: self.x,
            y: self.y,
            typed: self.typed,
            refused,
            caption,
        }
    }

    /// The line under a picture's title.
    pub fn caption(
        &self,
        (command, number): (&str, usize),
        register: u32,
        refusal: Option<&Refusal>,
    ) -> String {
        let title = titled(command, number);
        if let Some(refusal) = refusal {
            let (refused, spot) = (refusal.title(), &refusal.spot);
            return format!("{title}: refused {refused} {spot}, register {register}");
        }
        let (frame, after) = (self.tables.span(self.answer).words(), self.answer.reg);
        format!("{title}: {frame}, register {register} before, {after} after")
    }
}

/// The command, and which symbol of a stream it is.
pub fn titled(command: &str, number: usize) -> String {
    match number {
        0 => command.to_string(),
        number => format!("{command}, symbol {number}"),
    }
}
