//! What the signs of the picture mean.

use super::pen::{arrow, block, diamond, dot, ring, stroke, triangle, Pair, Pen};

#[derive(Clone, Copy, Debug, PartialEq, Eq)]
pub enum Sign {
    DataPoint,
    MonitoredPoint,
    SilentPoint,
    PossiblePoint,
    RefusedPoint,
    OutsidePoint,
    FartherPoint,
    Received,
    ManyReceived,
    Decided,
    FillerPoint,
    SilentZero,
    Distance,
    LargestDistance,
    HalfWay,
    Bits,
    MonitoredTone,
    SilentTone,
    AbsentTone,
    RefusedTone,
}

/// Draws the signs in a row with their meanings.
pub fn draw(pen: &mut Pen, signs: &[Sign], (mut x, y): Pair) {
    for sign in signs {
        sign.draw(pen, (x + 8.0, y - 4.0));
        pen.text((x + 20.0, y), "plain", sign.meaning());
        // Letters are about this wide.
        x += 20.0 + 6.3 * sign.meaning().chars().count() as f64 + 18.0;
    }
}

impl Sign {
    fn meaning(self) -> &'static str {
        match self {
            Sign::DataPoint => "point with data (by its sub-carriers, or \u{d7} tones)",
            Sign::MonitoredPoint => "monitored",
            Sign::SilentPoint => "silent, not at (0, 0)",
            Sign::PossiblePoint => "possible point",
            Sign::RefusedPoint => "refused",
            Sign::OutsidePoint => "farther out, at these numbers",
            Sign::FartherPoint => "farther out",
            Sign::Received => "received",
            Sign::ManyReceived => "received, of many",
            Sign::Decided => "decided",
            Sign::FillerPoint => "by the filler bits",
            Sign::SilentZero => "silent, (0, 0)",
            Sign::Distance => "from decided to received point",
            Sign::LargestDistance => "from decided to received point, the largest of neighbours",
            Sign::HalfWay => "half way to a neighbour on the grid",
            Sign::Bits => "data",
            Sign::MonitoredTone => "monitored",
            Sign::SilentTone => "silent, point (0, 0)",
            Sign::AbsentTone => "not in the tone table",
            Sign::RefusedTone => "refused",
        }
    }

    fn draw(self, pen: &mut Pen, (x, y): Pair) {
        let (corner, size) = ((x - 8.0, y - 6.0), (16.0, 12.0));
        match self {
            Sign::DataPoint => pen.path("large data", &dot((x, y))),
            Sign::MonitoredPoint => pen.path("monitored", &diamond((x, y), 5.5)),
            Sign::SilentPoint => pen.path("monitored", &triangle((x, y), 5.5)),
            Sign::PossiblePoint => pen.path("could", &dot((x, y))),
            Sign::RefusedPoint => refused(pen, (x, y)),
            Sign::OutsidePoint | Sign::FartherPoint => {
                pen.path("solid", &arrow((x, y), (1.0, 0.0)))
            }
            Sign::Received => {
                pen.path("vector", &stroke((x - 7.0, y), (x + 3.0, y)));
                pen.path("received", &ring((x + 4.0, y), 4.0));
            }
            Sign::ManyReceived => pen.path("small data", &dot((x, y))),
            Sign::Decided => pen.path("middling data", &dot((x, y))),
            Sign::FillerPoint => pen.path("monitored", &diamond((x, y), 3.5)),
            Sign::SilentZero => pen.path("monitored", &triangle((x, y), 3.5)),
            Sign::HalfWay => pen.line((x - 8.0, y), (x + 8.0, y), "mark"),
            Sign::Bits | Sign::Distance | Sign::LargestDistance => {
                pen.path("bar", &block(corner, size));
            }
            Sign::MonitoredTone => pen.path("solid", &block(corner, size)),
            Sign::SilentTone => pen.path("hatched", &block(corner, size)),
            Sign::AbsentTone => pen.path("axis", &block(corner, size)),
            Sign::RefusedTone => pen.line((x, y - 8.0), (x, y + 8.0), "mark"),
        }
    }
}

/// A box with a cross, around a point.
pub fn refused(pen: &mut Pen, (x, y): Pair) {
    const HALF: f64 = 8.0;
    let (left, right, top, bottom) = (x - HALF, x + HALF, y - HALF, y + HALF);
    pen.rect((left, top), (2.0 * HALF, 2.0 * HALF), "refused");
    pen.line((left, top), (right, bottom), "refused");
    pen.line((left, bottom), (right, top), "refused");
}
