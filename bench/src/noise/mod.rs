//! How often a frame is read wrong, against the noise of its points: coded beside uncoded.

mod curve;
mod gaussian;
mod line;
mod picture;
mod table;
mod unrounded;

pub use curve::{Curve, Effort, Rate};
pub use line::{Rounding, Way};
pub use picture::draw;
pub use table::print;

/// Uncoded, nothing is lost where coordinates are rounded to those that points have.
pub const UNCODED: Way = way("uncoded, rounded to odd numbers", false, Rounding::Odd);
pub const UNCODED_WHOLE: Way = way("uncoded, rounded to whole numbers", false, Rounding::Whole);
pub const CODED_ODD: Way = way("coded, rounded to odd numbers", true, Rounding::Odd);
pub const CODED_WHOLE: Way = way("coded, rounded to whole numbers", true, Rounding::Whole);
pub const CODED_DOUBT: Way = way(
    "coded, rounded to even only in doubt",
    true,
    Rounding::Doubt,
);
pub const CODED_FINE: Way = way("coded, not rounded", true, Rounding::Fine);

/// All that is measured.
pub const WAYS: [Way; 6] = [
    UNCODED,
    CODED_WHOLE,
    CODED_DOUBT,
    CODED_FINE,
    CODED_ODD,
    UNCODED_WHOLE,
];

const fn way(name: &'static str, coded: bool, rounding: Rounding) -> Way {
    Way {
        name,
        coded,
        rounding,
    }
}
