//! The scale of a panel: where its points lie in the picture. A point far outside lies on the
//! frame, so that it does not shrink the others to a dot.

use super::layout::Square;
use super::pen::Pair;

#[derive(Clone, Copy)]
pub struct Scale {
    /// The upper left corner and the side of the panel.
    pub corner: Pair,
    pub side: f64,
    /// The largest coordinate that is drawn where it lies.
    pub extent: i16,
}

/// Where a point is drawn.
#[derive(Clone, Copy)]
pub struct Drawn {
    pub at: Pair,
    /// The direction in which it really lies, if that is outside.
    pub outside: Option<Pair>,
}

impl Scale {
    /// Twice the size of the constellation at most; within that, as far out as points lie.
    pub fn new(
        Square { corner, side }: Square,
        constellation: &[(i16, i16)],
        points: impl Iterator<Item = (i16, i16)>,
    ) -> Scale {
        let (own, limit) = limits(constellation);
        let near = points.map(size).filter(|&size| size <= limit);
        Scale {
            corner,
            side,
            extent: near.fold(own, i16::max),
        }
    }

    fn reach(&self) -> f64 {
        let extent = f64::from(self.extent);
        extent + (0.12 * extent).max(1.3)
    }

    /// How far apart neighbouring numbers lie.
    pub fn step(&self) -> f64 {
        self.side / (2.0 * self.reach())
    }

    /// Where a point within the scale lies.
    pub fn at(&self, (x, y): (i16, i16)) -> Pair {
        let (reach, step) = (self.reach(), self.step());
        let (left, top) = self.corner;
        (
            left + (reach + f64::from(x)) * step,
            top + (reach - f64::from(y)) * step,
        )
    }

    pub fn drawn(&self, point: (i16, i16)) -> Drawn {
        if size(point) <= self.extent {
            return Drawn {
                at: self.at(point),
                outside: None,
            };
        }
        // Room for the arrow and the sign of a refusal within the frame.
        const INSET: f64 = 20.0;
        let (x, y) = self.at(point);
        let (left, top) = (self.corner.0 + INSET, self.corner.1 + INSET);
        let side = self.side - 2.0 * INSET;
        let at = (x.clamp(left, left + side), y.clamp(top, top + side));
        let (dx, dy) = (x - at.0, y - at.1);
        let length = dx.hypot(dy).max(1e-9);
        Drawn {
            at,
            outside: Some((dx / length, dy / length)),
        }
    }
}

/// Whether a point would be drawn on the frame, too far out for the scale of a constellation.
pub fn is_far(constellation: &[(i16, i16)], point: (i16, i16)) -> bool {
    size(point) > limits(constellation).1
}

/// The size of a constellation, and how far out its scale may go.
fn limits(constellation: &[(i16, i16)]) -> (i16, i16) {
    const LEAST: i16 = 6;
    let own = constellation.iter().map(|&point| size(point)).max();
    let own = own.unwrap_or(1).max(1);
    (own, own.saturating_mul(2).max(LEAST))
}

/// The larger coordinate.
pub fn size((x, y): (i16, i16)) -> i16 {
    x.saturating_abs().max(y.saturating_abs())
}
