//! The frame of a panel, with its name and its scale, and what is written beside its points.

use super::pen::{arrow, Pair, Pen};
use super::scale::Scale;
use crate::index::Subcarrier;

pub struct Plot {
    pub scale: Scale,
}

/// Where words stand beside a marker.
pub enum Side {
    Above,
    Below,
}

impl Plot {
    /// Draws the frame, its name above it, and the scale with the names of its two directions.
    pub fn draw(&self, pen: &mut Pen, name: &str, directions: [&str; 2]) {
        let Scale { corner, side, .. } = self.scale;
        let (left, top) = corner;
        let (middle_x, middle_y) = self.scale.at((0, 0));
        pen.text((left, top - 8.0), "name", name);
        pen.rect(corner, (side, side), "frame");
        pen.line((left, middle_y), (left + side, middle_y), "zero");
        pen.line((middle_x, top), (middle_x, top + side), "zero");
        self.draw_scale(pen, directions);
    }

    fn draw_scale(&self, pen: &mut Pen, [across, up]: [&str; 2]) {
        let Scale { corner, side, .. } = self.scale;
        let (left, top) = corner;
        let bottom = top + side;
        for tick in ticks(self.scale.extent) {
            let (x, y) = self.scale.at((tick, tick));
            let words = tick.to_string().replace('-', "\u{2212}");
            pen.line((x, bottom), (x, bottom + 4.0), "axis");
            pen.text((x, bottom + 15.0), "tick middle", &words);
            pen.line((left - 4.0, y), (left, y), "axis");
            pen.text((left - 6.0, y + 4.0), "tick end", &words);
        }
        pen.text((left + side / 2.0, bottom + 29.0), "tick middle", across);
        pen.text((left - 8.0, top - 6.0), "tick end", up);
    }

    /// Lines of text beside a marker of this half height, on the other side where the frame is too
    /// near, and moved aside where they would cross the frame.
    pub fn write(
        &self,
        pen: &mut Pen,
        lines: &[String],
        (x, y): Pair,
        (side_of_it, marker): (Side, f64),
    ) {
        const LINE: f64 = 12.0;
        let Scale { corner, side, .. } = self.scale;
        let height = LINE * lines.len() as f64;
        let below = match side_of_it {
            Side::Above => y - marker - height < corner.1,
            Side::Below => y + marker + height < corner.1 + side,
        };
        let first = match below {
            true => y + marker + LINE - 2.0,
            false => y - marker - height + LINE,
        };
        for (number, line) in lines.iter().enumerate() {
            let half = 3.2 * line.chars().count() as f64;
            let (left, right) = (corner.0 + half, corner.0 + side - half);
            let x = match left < right {
                true => x.clamp(left, right),
                false => corner.0 + side / 2.0,
            };
            pen.text((x, first + LINE * number as f64), "label middle", line);
        }
    }
}

/// Part of a path: an arrow that begins beside the sign of a refusal.
pub fn far_arrow((x, y): Pair, (dx, dy): Pair) -> String {
    const AWAY: f64 = 19.0;
    arrow((x + AWAY * dx, y + AWAY * dy), (dx, dy))
}

/// Sub-carriers, the first three by name.
pub fn names(tones: &[Subcarrier]) -> String {
    let shown: Vec<String> = tones.iter().take(3).map(|tone| tone.to_string()).collect();
    match tones.len() {
        0..=3 => shown.join(", "),
        count => format!("{} +{}", shown.join(", "), count - 3),
    }
}

/// The numbers of a scale: every odd one if they are few, else the ends and, in the scale of a
/// constellation, the middles.
fn ticks(extent: i16) -> Vec<i16> {
    let positive: Vec<i16> = match extent {
        0..=5 => (1..=extent).step_by(2).collect(),
        6..=255 => vec![(extent - 1) / 2, extent],
        _ => vec![extent],
    };
    let negative = positive.iter().map(|tick| -tick);
    negative.chain(positive.iter().copied()).collect()
}
