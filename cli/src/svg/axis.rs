//! The sub-carriers from left to right, which all charts share.

use super::pen::{Pair, Pen};
use super::symbol::{MARGIN, WIDTH};

pub const LEFT: f64 = MARGIN + 62.0;
pub const RIGHT: f64 = WIDTH - MARGIN - 8.0;
/// A lone tone among many is still seen, beside the frame too.
pub const NARROWEST: f64 = 2.0;
/// Up to this many sub-carriers, bars stand apart.
const FEW: usize = 64;

#[derive(Clone, Copy)]
pub struct Axis {
    /// G.
    pub carriers: usize,
}

impl Axis {
    pub fn x(&self, carrier: f64) -> f64 {
        LEFT + (RIGHT - LEFT) * carrier / self.carriers as f64
    }

    /// Whether bars stand apart.
    pub fn is_apart(&self) -> bool {
        self.carriers <= FEW
    }

    /// Left end and width of a run of sub-carriers, widened about its middle if it is narrow.
    pub fn span(&self, start: f64, end: f64) -> Pair {
        let (left, right) = (self.x(start), self.x(end));
        if right - left >= NARROWEST {
            return (left, right - left);
        }
        let left = (left + right - NARROWEST) / 2.0;
        (left.clamp(LEFT + 1.0, RIGHT - 1.0 - NARROWEST), NARROWEST)
    }

    /// Left end and width of a run of bars.
    pub fn bars(&self, start: usize, end: usize) -> Pair {
        let inset = if self.is_apart() { 0.12 } else { 0.0 };
        self.span(start as f64 + inset, end as f64 - inset)
    }

    /// The numbers under a chart that ends here; tells where they end.
    pub fn draw(&self, pen: &mut Pen, bottom: f64) -> f64 {
        let step = self.carriers.div_ceil(8).next_power_of_two();
        for carrier in (0..self.carriers).step_by(step) {
            let x = self.x(carrier as f64 + 0.5);
            pen.line((x, bottom), (x, bottom + 4.0), "axis");
            pen.text((x, bottom + 16.0), "tick middle", &carrier.to_string());
        }
        let middle = (LEFT + RIGHT) / 2.0;
        pen.text((middle, bottom + 32.0), "tick middle", "sub-carrier index");
        bottom + 48.0
    }
}
