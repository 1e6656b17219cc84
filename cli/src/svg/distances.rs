//! How far each loaded tone is off, over the sub-carriers.

use super::axis::{Axis, LEFT, NARROWEST, RIGHT};
use super::legend::Sign;
use super::pen::{block, Pen};
use super::symbol::{Compared, MARGIN};
use crate::files::Class;
use crate::index::Subcarrier;

const HEIGHT: f64 = 140.0;
/// The scale is even up to this distance; beyond, each step doubles.
const EVEN: f64 = 8.0;
/// So many of the farthest are named, if no more than these are as far off.
const NAMED: usize = 3;
const ALIKE: usize = 10;

pub struct Distances {
    axis: Axis,
    top: f64,
    /// The loaded tones with their distances.
    tones: Vec<(Subcarrier, f64)>,
    /// The largest distance of the scale.
    most: f64,
}

impl Distances {
    /// The chart from `top` down.
    pub fn new(compared: &Compared, top: f64) -> Distances {
        let symbol = &compared.symbol;
        let mut tones = Vec::new();
        for (place, tone) in symbol.order.places() {
            let (x, y) = (symbol.x.get(place.0), symbol.y.get(place.0));
            let decided = compared.decided.at(place);
            if let (Class::Data(_), Some(x), Some(y), Some(decided)) =
                (symbol.set.class_of(tone), x, y, decided)
            {
                let (dx, dy) = (x.abs_diff(decided.0), y.abs_diff(decided.1));
                tones.push((tone, f64::from(dx).hypot(f64::from(dy))));
            }
        }
        let farthest = tones.iter().map(|tone| tone.1).fold(0.0, f64::max);
        let scales = [2.0, 4.0, EVEN];
        let most = scales.into_iter().find(|&scale| scale >= farthest);
        Distances {
            axis: Axis {
                carriers: symbol.set.carriers(),
            },
            top,
            tones,
            most: most.unwrap_or(farthest),
        }
    }

    /// What a bar stands for.
    pub fn sign(&self) -> Sign {
        match self.columns() < self.axis.carriers {
            true => Sign::LargestDistance,
            false => Sign::Distance,
        }
    }

    /// Draws the chart and tells where it ends.
    pub fn draw(&self, pen: &mut Pen) -> f64 {
        self.draw_bars(pen);
        let bottom = self.top + HEIGHT;
        pen.rect((LEFT, self.top), (RIGHT - LEFT, HEIGHT), "frame");
        for tick in self.ticks() {
            let y = self.y(tick);
            pen.line((LEFT - 4.0, y), (LEFT, y), "axis");
            pen.text((LEFT - 8.0, y + 4.0), "tick end", &tick.to_string());
        }
        pen.text((MARGIN, self.top + HEIGHT / 2.0), "tick", "off by");
        pen.line((LEFT, self.y(1.0)), (RIGHT, self.y(1.0)), "mark");
        self.name_farthest(pen);
        self.axis.draw(pen, bottom)
    }

    fn y(&self, distance: f64) -> f64 {
        let level = match self.most > EVEN {
            true => (1.0 + distance).log2() / (1.0 + self.most).log2(),
            false => distance / self.most,
        };
        self.top + HEIGHT * (1.0 - level)
    }

    fn ticks(&self) -> Vec<f64> {
        let doubling = [
            0.0, 1.0, 3.0, 7.0, 15.0, 31.0, 63.0, 127.0, 255.0, 511.0, 1023.0, 2047.0,
        ];
        let even = [0.0, 1.0, 2.0, 4.0, 8.0];
        let ticks: &[f64] = if self.most > EVEN { &doubling } else { &even };
        let within = ticks.iter().copied().filter(|&tick| tick <= self.most);
        within.collect()
    }

    /// A bar a sub-carrier, as long as they are wide enough.
    fn columns(&self) -> usize {
        let room = ((RIGHT - LEFT) / NARROWEST) as usize;
        self.axis.carriers.min(room)
    }

    /// A bar of neighbours is as high as the farthest of them.
    fn draw_bars(&self, pen: &mut Pen) {
        let (carriers, columns) = (self.axis.carriers, self.columns());
        let mut farthest = vec![0.0; columns];
        for &(tone, distance) in &self.tones {
            let column = usize::from(tone.0) * columns / carriers;
            farthest[column] = f64::max(farthest[column], distance);
        }
        let columns = Axis { carriers: columns };
        let mut bars = String::new();
        for (column, &distance) in farthest.iter().enumerate() {
            let (left, width) = columns.bars(column, column + 1);
            if distance > 0.0 {
                let (top, bottom) = (self.y(distance), self.y(0.0));
                bars.push_str(&block((left, top), (width, bottom - top)));
            }
        }
        pen.path(if columns.is_apart() { "bar" } else { "area" }, &bars);
    }

    /// The numbers of the tones that are farthest off, as far as they do not cover each other.
    fn name_farthest(&self, pen: &mut Pen) {
        const ROOM: f64 = 40.0;
        let mut tones: Vec<_> = self.tones.iter().filter(|tone| tone.1 > 0.0).collect();
        tones.sort_by(|one, other| other.1.total_cmp(&one.1));
        // Where many are as far off as one of them, a name says nothing.
        if let Some((_, limit)) = tones.get(ALIKE).copied() {
            tones.retain(|tone| tone.1 > *limit);
        }
        let mut named: Vec<f64> = Vec::new();
        for (tone, distance) in tones {
            let x = self.axis.x(f64::from(tone.0) + 0.5);
            if named.len() < NAMED && named.iter().all(|other| (other - x).abs() > ROOM) {
                let y = (self.y(*distance) - 4.0).max(self.top + 11.0);
                let x = x.clamp(LEFT + 14.0, RIGHT - 14.0);
                pen.text((x, y), "label middle", &tone.to_string());
                named.push(x);
            }
        }
    }
}
