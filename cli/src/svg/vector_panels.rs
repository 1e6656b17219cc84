//! Received points beside the decided ones: a panel a group, each in its own scale.

use super::layout::{self, Square};
use super::pen::{diamond, dot, ring, stroke, triangle, Pair, Pen};
use super::plot::{far_arrow, names, Plot, Side};
use super::scale::Scale;
use super::vectors::{Vector, VectorGroup};
use crate::files::Class;
use crate::words::count;

/// Up to this many tones, every received point is labelled with its sub-carriers.
const FEW_TONES: usize = 8;
/// Above this, lines would cover each other, and only the received points are drawn.
const MANY_VECTORS: usize = 256;

/// The panels of all groups, from `top` down.
pub fn lay(groups: &[VectorGroup], top: f64) -> Vec<VectorPanel<'_>> {
    let squares = layout::squares(groups.len(), top).into_iter();
    let panels = groups.iter().zip(squares);
    panels
        .map(|(group, square)| VectorPanel::new(group, square))
        .collect()
}

/// Draws all panels and tells where they end.
pub fn draw(pen: &mut Pen, panels: &[VectorPanel], top: f64) -> f64 {
    for panel in panels {
        panel.draw(pen);
    }
    layout::end(panels.len(), top)
}

pub struct VectorPanel<'a> {
    pub group: &'a VectorGroup,
    plot: Plot,
}

impl<'a> VectorPanel<'a> {
    fn new(group: &'a VectorGroup, square: Square) -> VectorPanel<'a> {
        let received = group.vectors.iter().map(|vector| vector.received);
        let common = group.common_size();
        let scale = match group.laid_over {
            true => Scale::new(square, &[(common, common)], received),
            false => Scale::new(square, &group.possible, received),
        };
        VectorPanel {
            group,
            plot: Plot { scale },
        }
    }

    /// Whether received points are drawn as dots, without lines.
    pub fn has_many(&self) -> bool {
        self.group.vectors.len() > MANY_VECTORS
    }

    /// Whether some received point lies outside the panel.
    pub fn has_outside(&self) -> bool {
        let mut vectors = self.group.vectors.iter();
        vectors.any(|vector| self.plot.scale.drawn(vector.received).outside.is_some())
    }

    /// Whether the points that a tone could have stand apart, so that they are drawn.
    pub fn shows_possible(&self) -> bool {
        const APART: f64 = 4.0;
        self.plot.scale.step() >= APART / 2.0
    }

    fn draw(&self, pen: &mut Pen) {
        let class = self.group.class;
        let tones = count(self.group.tone_count(), "tone");
        let directions = match self.group.laid_over {
            true => ["\u{394}X", "\u{394}Y"],
            false => ["X", "Y"],
        };
        self.plot
            .draw(pen, &format!("{class}, {tones}"), directions);
        if self.shows_possible() {
            let possible = self.group.possible.iter();
            let inside = possible.filter(|&&point| self.plot.scale.drawn(point).outside.is_none());
            let could = inside.map(|&point| dot(self.plot.scale.at(point)));
            pen.path("could", &could.collect::<String>());
        }
        self.draw_received(pen);
        self.draw_decided(pen);
        for vector in &self.group.vectors {
            self.label(pen, vector);
        }
    }

    fn draw_received(&self, pen: &mut Pen) {
        let many = self.has_many();
        let (mut lines, mut rings, mut arrows) = (String::new(), String::new(), String::new());
        for vector in &self.group.vectors {
            let drawn = self.plot.scale.drawn(vector.received);
            let from = self.plot.scale.drawn(vector.decided).at;
            match drawn.outside {
                Some(direction) => arrows.push_str(&far_arrow(drawn.at, direction)),
                None if many => rings.push_str(&dot(drawn.at)),
                None => rings.push_str(&ring(drawn.at, self.radius(vector))),
            }
            if !many && vector.decided != vector.received {
                lines.push_str(&stroke(from, drawn.at));
            }
        }
        pen.path("vector", &lines);
        pen.path(if many { "small data" } else { "received" }, &rings);
        pen.path("solid", &arrows);
    }

    /// The more tones have a vector, the larger is its ring; rings of neighbours do not touch.
    fn radius(&self, vector: &Vector) -> f64 {
        const LEAST: f64 = 1.5;
        const OF_ONE: f64 = 4.5;
        let largest = (0.45 * self.plot.scale.step()).clamp(LEAST, 8.0);
        let tones = self.group.vectors.iter().map(|vector| vector.tones.len());
        match tones.max() {
            Some(most @ 2..) => {
                let part = vector.tones.len() as f64 / most as f64;
                LEAST + (largest - LEAST) * part.sqrt()
            }
            _ => largest.min(OF_ONE),
        }
    }

    fn draw_decided(&self, pen: &mut Pen) {
        let mut points: Vec<_> = self
            .group
            .vectors
            .iter()
            .map(|vector| vector.decided)
            .collect();
        points.dedup();
        let places = points.into_iter().map(|point| self.plot.scale.at(point));
        let (class, marker): (_, fn(Pair) -> String) = match self.group.class {
            Class::Data(_) => ("middling data", dot),
            Class::Monitored => ("monitored", |at| diamond(at, 3.5)),
            Class::Silent => ("monitored", |at| triangle(at, 3.5)),
        };
        pen.path(class, &places.map(marker).collect::<String>());
    }

    /// Whose point it is, where tones are few; what lies outside, with its numbers.
    fn label(&self, pen: &mut Pen, vector: &Vector) {
        let drawn = self.plot.scale.drawn(vector.received);
        if self.group.tone_count() > FEW_TONES {
            return;
        }
        let mut lines = vec![names(&vector.tones)];
        if drawn.outside.is_some() {
            let (x, y) = vector.received;
            lines.push(format!("({x}, {y})"));
        }
        // The line to the decided point stays free.
        let side = match vector.decided.1 > vector.received.1 {
            true => Side::Below,
            false => Side::Above,
        };
        self.plot.write(pen, &lines, drawn.at, (side, 7.0));
    }
}
