//! What the first monitored tone says of the clips, and the verdict that it makes.

use super::verdict::{Ground, Known, Origin, Verdict};
use crate::register::Reach;
use crate::way::Way;
use clevisroot_sys::clips;

pub enum Said {
    /// It came this way with this register.
    Way(Way, Known),
    /// No register gives its point, turned or not: filler bits give four points, and with any register
    /// each of them is one of the four ways.
    Neither,
    /// No tone is monitored.
    Nothing,
}

impl Said {
    /// The library's answer with this register, and the quarter turn where that is neither.
    pub fn of(clip: u32, quarter: Option<Way>, known: Known) -> Said {
        let way = match clip {
            clips::STRAIGHT => Some(Way::Straight),
            clips::TURNED => Some(Way::Turned),
            clips::CANT_TELL => return Said::Nothing,
            _ => quarter,
        };
        way.map_or(Said::Neither, |way| {
            let agreed = Reach::ONE_TONE;
            let known = known.telling(way);
            Said::Way(way, Known { agreed, ..known })
        })
    }

    pub fn verdict(&self) -> Verdict {
        match self {
            Said::Way(way, known) => match known.origin {
                Origin::Given => Verdict::Sure(*way),
                _ => Verdict::Perhaps(*way),
            },
            Said::Neither => Verdict::Neither,
            Said::Nothing => Verdict::CannotTell,
        }
    }

    pub fn ground(&self) -> Ground {
        match self {
            Said::Way(_, known) => Ground::OneTone(*known),
            Said::Neither => Ground::NoRegister,
            Said::Nothing => Ground::Nothing,
        }
    }

    /// What the register is from now on, which was known so before.
    pub fn known_after(&self, before: Known) -> Known {
        match self {
            Said::Way(_, known) => *known,
            Said::Neither => before.doubted(),
            Said::Nothing => before,
        }
    }
}
