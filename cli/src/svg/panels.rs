//! The points: a panel a group, each in its own scale.

use super::groups::{constellation, Group, Spot};
use super::layout::{self, Square};
use super::legend::refused;
use super::pen::{diamond, dot, triangle, Pen};
use super::plot::{far_arrow, names, Plot, Side};
use super::scale::Scale;
use crate::files::Class;
use crate::words::count;

/// Above this, the points that a tone could have are too many to draw.
const FEW_POINTS: usize = 256;
/// Up to this many tones, every point is labelled with its sub-carriers.
const FEW_TONES: usize = 8;
/// Up to this many points, each is labelled with its count of tones.
const FEW_SPOTS: usize = 16;

/// The panels of all groups, from `top` down.
pub fn lay(groups: &[Group], top: f64) -> Vec<Panel<'_>> {
    let squares = layout::squares(groups.len(), top).into_iter();
    let panels = groups.iter().zip(squares);
    panels
        .map(|(group, square)| Panel::new(group, square))
        .collect()
}

/// Draws all panels and tells where they end.
pub fn draw(pen: &mut Pen, panels: &[Panel], top: f64) -> f64 {
    for panel in panels {
        panel.draw(pen);
    }
    layout::end(panels.len(), top)
}

pub struct Panel<'a> {
    group: &'a Group,
    constellation: Vec<(i16, i16)>,
    plot: Plot,
}

impl<'a> Panel<'a> {
    fn new(group: &'a Group, square: Square) -> Panel<'a> {
        let constellation = constellation(group.class);
        let points = group.spots.iter().map(|spot| spot.point);
        Panel {
            group,
            plot: Plot {
                scale: Scale::new(square, &constellation, points),
            },
            constellation,
        }
    }

    /// Whether the points that a tone could have are drawn.
    pub fn shows_possible(&self) -> bool {
        self.constellation.len() <= FEW_POINTS
    }

    /// Whether some point lies outside the panel.
    pub fn has_outside(&self) -> bool {
        let mut spots = self.group.spots.iter();
        spots.any(|spot| self.plot.scale.drawn(spot.point).outside.is_some())
    }

    fn draw(&self, pen: &mut Pen) {
        let class = self.group.class;
        let tones = count(self.group.tone_count(), "tone");
        self.plot
            .draw(pen, &format!("{class}, {tones}"), ["X", "Y"]);
        if self.shows_possible() {
            let could = self.constellation.iter();
            let could = could.map(|&point| dot(self.plot.scale.at(point)));
            pen.path("could", &could.collect::<String>());
        }
        self.draw_spots(pen);
        self.draw_refused(pen);
        for spot in &self.group.spots {
            self.label(pen, spot);
        }
    }

    fn draw_spots(&self, pen: &mut Pen) {
        let half = [2.0, 3.5, 5.5][self.marker()];
        let (mut markers, mut arrows) = (String::new(), String::new());
        for spot in &self.group.spots {
            let drawn = self.plot.scale.drawn(spot.point);
            match (drawn.outside, self.group.class) {
                (Some(direction), _) => {
                    arrows.push_str(&far_arrow(drawn.at, direction));
                }
                (None, Class::Data(_)) => markers.push_str(&dot(drawn.at)),
                (None, Class::Monitored) => markers.push_str(&diamond(drawn.at, half)),
                (None, Class::Silent) => markers.push_str(&triangle(drawn.at, half)),
            }
        }
        let class = match self.group.class {
            Class::Data(_) => ["small data", "middling data", "large data"][self.marker()],
            Class::Monitored | Class::Silent => "monitored",
        };
        pen.path(class, &markers);
        pen.path("solid", &arrows);
    }

    fn draw_refused(&self, pen: &mut Pen) {
        let spots = self.group.spots.iter();
        for spot in spots.filter(|spot| !spot.refused.is_empty()) {
            refused(pen, self.plot.scale.drawn(spot.point).at);
        }
    }

    /// The more points, the smaller their markers: 0 to 2.
    fn marker(&self) -> usize {
        match self.group.spots.len() {
            257.. => 0,
            65.. => 1,
            _ if !self.shows_possible() => 1,
            _ => 2,
        }
    }

    /// Whose point it is, or how many tones have it; what is refused, and what lies outside, with
    /// its numbers.
    fn label(&self, pen: &mut Pen, spot: &Spot) {
        let drawn = self.plot.scale.drawn(spot.point);
        let few = self.group.spots.len() <= FEW_SPOTS;
        let words = if !spot.refused.is_empty() {
            refused_names(spot)
        } else if self.group.tone_count() <= FEW_TONES {
            names(&spot.tones)
        } else if few && spot.tones.len() > 1 {
            format!("\u{d7}{}", spot.tones.len())
        } else {
            String::new()
        };
        let mut lines = vec![words];
        if drawn.outside.is_some() && (few || !spot.refused.is_empty()) {
            lines.push(spot.words.clone());
        }
        lines.retain(|line| !line.is_empty());
        let marker = if spot.refused.is_empty() { 7.0 } else { 11.0 };
        self.plot
            .write(pen, &lines, drawn.at, (Side::Above, marker));
    }
}

/// The tones that were refused, by name, and how many others share their point.
fn refused_names(spot: &Spot) -> String {
    let refused: Vec<String> = spot.refused.iter().map(|tone| tone.to_string()).collect();
    let others = spot.tones.len() - spot.refused.len();
    match others {
        0 => format!("{} refused", refused.join(", ")),
        _ => format!("{} refused, +{others} here", refused.join(", ")),
    }
}
