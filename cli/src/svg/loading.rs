//! The bit loading over the sub-carriers, and below it where tones are monitored or silent.

use super::axis::{Axis, LEFT, RIGHT};
use super::pen::{block, Pen};
use super::symbol::{Symbol, MARGIN};
use crate::files::Class;
use crate::index::Subcarrier;
use std::ops::Range;

const HEIGHT: f64 = 180.0;
const STRIP: f64 = 12.0;
const GAP: f64 = 6.0;

pub struct Chart {
    axis: Axis,
    /// The class of each sub-carrier, none if it is not in the tone table.
    classes: Vec<Option<Class>>,
    top: f64,
    /// The largest bit count of the scale.
    most: u8,
    /// The tones that a reader refused.
    refused: Vec<Subcarrier>,
}

impl Chart {
    /// The chart from `top` down.
    pub fn new(symbol: &Symbol, top: f64) -> Chart {
        let mut classes = vec![None; symbol.set.carriers()];
        let mut most = 0;
        for tone in symbol.set.tones() {
            if let Some(class) = classes.get_mut(usize::from(tone.0)) {
                *class = Some(symbol.set.class_of(tone));
            }
            most = most.max(symbol.set.bits_of(tone));
        }
        let scales = [4, 8, 15];
        let most = scales.into_iter().find(|&scale| scale >= most);
        Chart {
            axis: Axis {
                carriers: classes.len(),
            },
            classes,
            top,
            most: most.unwrap_or(15),
            refused: symbol
                .refused
                .iter()
                .filter_map(|&place| symbol.order.tone_at(place))
                .collect(),
        }
    }

    /// Draws the chart and tells where it ends.
    pub fn draw(&self, pen: &mut Pen) -> f64 {
        self.draw_bits(pen);
        self.draw_strip(pen, 0, Class::Monitored);
        self.draw_strip(pen, 1, Class::Silent);
        let end = self.draw_scales(pen);
        self.draw_refused(pen);
        end
    }

    fn y(&self, bits: u8) -> f64 {
        self.top + HEIGHT * (1.0 - f64::from(bits) / f64::from(self.most))
    }

    /// Neighbours of one class, as one run unless bars stand apart.
    fn runs(&self, test: impl Fn(Class) -> bool) -> Vec<(Class, Range<usize>)> {
        let mut runs: Vec<(Class, Range<usize>)> = Vec::new();
        for (carrier, class) in self.classes.iter().enumerate() {
            let Some(class) = class.filter(|&class| test(class)) else {
                continue;
            };
            match runs.last_mut() {
                Some((last, run))
                    if *last == class && run.end == carrier && !self.axis.is_apart() =>
                {
                    run.end = carrier + 1;
                }
                _ => runs.push((class, carrier..carrier + 1)),
            }
        }
        runs
    }

    fn draw_bits(&self, pen: &mut Pen) {
        let mut bars = String::new();
        for (class, run) in self.runs(|class| matches!(class, Class::Data(_))) {
            let Class::Data(bits) = class else { continue };
            let (left, width) = self.axis.bars(run.start, run.end);
            let (top, bottom) = (self.y(bits), self.y(0));
            bars.push_str(&block((left, top), (width, bottom - top)));
        }
        let apart = self.axis.is_apart();
        pen.path(if apart { "bar" } else { "area" }, &bars);
    }

    /// A strip under the bars.
    fn draw_strip(&self, pen: &mut Pen, row: usize, class: Class) {
        let top = self.y(0) + GAP + row as f64 * (STRIP + GAP);
        let fill = match class {
            Class::Silent => "hatched",
            _ => "solid",
        };
        let runs = self.runs(|other| other == class);
        let blocks = runs.into_iter().map(|(_, run)| {
            let (left, width) = self.axis.span(run.start as f64, run.end as f64);
            block((left, top), (width, STRIP))
        });
        pen.path(fill, &blocks.collect::<String>());
        pen.rect((LEFT, top), (RIGHT - LEFT, STRIP), "frame");
        pen.text(
            (LEFT - 8.0, top + STRIP - 2.0),
            "tick end",
            &class.to_string(),
        );
    }

    /// A line through each tone that was refused, with its number.
    fn draw_refused(&self, pen: &mut Pen) {
        let bottom = self.y(0) + 2.0 * (STRIP + GAP);
        for (row, tone) in self.refused.iter().enumerate() {
            let x = self.axis.x(f64::from(tone.0) + 0.5);
            pen.line((x, self.top), (x, bottom), "mark");
            // Neighbours' numbers stand below each other.
            let y = self.top + 12.0 + 12.0 * (row % 4) as f64;
            let (x, class) = match x > RIGHT - 40.0 {
                true => (x - 4.0, "label end"),
                false => (x + 4.0, "label"),
            };
            pen.text((x, y), class, &tone.to_string());
        }
    }

    fn draw_scales(&self, pen: &mut Pen) -> f64 {
        pen.rect((LEFT, self.top), (RIGHT - LEFT, HEIGHT), "frame");
        let step = if self.most == 15 { 5 } else { self.most / 4 };
        for bits in (0..=self.most).step_by(usize::from(step)) {
            pen.line((LEFT - 4.0, self.y(bits)), (LEFT, self.y(bits)), "axis");
            pen.text(
                (LEFT - 8.0, self.y(bits) + 4.0),
                "tick end",
                &bits.to_string(),
            );
        }
        pen.text((MARGIN, self.top + HEIGHT / 2.0), "tick", "bits");
        let bottom = self.y(0) + GAP + 2.0 * (STRIP + GAP) - GAP;
        self.axis.draw(pen, bottom)
    }
}
