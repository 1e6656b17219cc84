//! The share of frames that are read wrong, noise level by noise level.

use super::line::{Line, Way};

/// When enough frames were sent at a noise level: so many are wrong, or so many were sent.
#[derive(Clone, Copy)]
pub struct Effort {
    pub wrong: u32,
    pub frames: u32,
}

/// Frames read wrong at a noise level.
#[derive(Clone, Copy)]
pub struct Rate {
    /// How far neighbouring points are apart against the noise of a coordinate.
    pub decibels: f64,
    pub wrong: u32,
    pub frames: u32,
}

pub struct Curve {
    pub way: Way,
    pub rates: Vec<Rate>,
}

impl Rate {
    pub fn share(&self) -> f64 {
        f64::from(self.wrong) / f64::from(self.frames)
    }
}

impl Curve {
    /// By half decibels, until less than a fortieth of the wrong frames that are wanted are found.
    pub fn measure(way: Way, effort: Effort) -> Curve {
        let mut line = Line::new(way);
        let levels = (16..).map(|halves| f64::from(halves) / 2.0);
        let rates = levels.map(|decibels| line.measure(decibels, effort));
        Curve {
            way,
            rates: rates
                .take_while(|rate| 40 * rate.wrong >= effort.wrong)
                .collect(),
        }
    }

    /// The noise level with this share of wrong frames, between two that were measured.
    pub fn decibels_at(&self, share: f64) -> Option<f64> {
        let mut steps = self.rates.iter().zip(self.rates.iter().skip(1));
        let (left, right) = steps.find(|(_, right)| right.share() <= share)?;
        let [high, wanted, low] = [left.share(), share, right.share()].map(f64::log10);
        let part = (high - wanted) / (high - low);
        Some(left.decibels + part * (right.decibels - left.decibels))
    }
}
