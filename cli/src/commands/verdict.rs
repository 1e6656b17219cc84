//! Verdicts on the clips: how sure they are, and what they rest on.

use crate::call::Asked;
use crate::register::{Reach, Reaches};
use crate::way::{Family, Way};

/// The exit status where nothing can be told.
pub const CANNOT_TELL: u8 = 33;

/// The exit status of a quarter turn, whether its side is told or not.
const QUARTER: u8 = 37;

#[derive(Clone, Copy, Debug, PartialEq, Eq, PartialOrd, Ord)]
pub enum Verdict {
    Sure(Way),
    /// Sure that it is a quarter turn, and not to which side.
    Quarter,
    Perhaps(Way),
    CannotTell,
    Neither,
}

/// Where the register came from that the points were read with.
#[derive(Clone, Copy, Debug, PartialEq, Eq)]
pub enum Origin {
    /// It was not given, so the value at reset was assumed before the first symbol.
    Reset,
    Given,
    /// The monitored tones gave it; so many of them.
    Found(usize),
    /// So many monitored tones of several symbols gave it, too few to say that none is missing.
    FoundAcross(usize),
    /// A symbol before was refused and handed it back, so that it may be out of step.
    HandedBack,
    /// Symbols before were another way round with it, so that one may be missing.
    Contradicted,
    /// It was drawn on past a symbol that was refused or was neither way round with it, so that it may
    /// be out of step.
    DrawnOn,
}

/// A register, and what speaks for it.
#[derive(Clone, Copy, Debug)]
pub struct Known {
    pub register: u32,
    pub origin: Origin,
    /// The monitored tones of the symbols so far that agree with it, all the same way round.
    pub agreed: Reach,
    /// No other register gives their points, either way.
    pub enough: bool,
    pub way: Option<Way>,
    /// It is the one after the draws of a symbol.
    pub carried: bool,
}

impl Known {
    pub fn new(register: u32, origin: Origin) -> Known {
        Known {
            register,
            origin,
            agreed: Reach::default(),
            enough: false,
            way: None,
            carried: false,
        }
    }

    /// The register that a call names, or the one at reset.
    pub fn asked(register: &Asked) -> Known {
        let origin = match register {
            Asked::Given(..) => Origin::Given,
            Asked::Reset | Asked::Find => Origin::Reset,
        };
        Known::new(register.value(), origin)
    }

    pub fn is_found(self) -> bool {
        matches!(self.origin, Origin::Found(_) | Origin::FoundAcross(_))
    }

    /// Whether a symbol before was another way round with it.
    pub fn is_against(self, way: Way) -> bool {
        self.way.is_some_and(|before| before != way)
    }

    /// What it is to a symbol that is this way round with it: clips are not swapped within a stream,
    /// so that a change of the way speaks against the register.
    pub fn telling(self, way: Way) -> Known {
        let origin = match self.is_against(way) {
            true => Origin::Contradicted,
            false => self.origin,
        };
        Known {
            origin,
            way: Some(way),
            ..self
        }
    }

    /// What it is after a symbol that was refused or neither way round with it: one that was given may
    /// be out of step from now on.
    pub fn doubted(self) -> Known {
        let origin = match self.origin {
            Origin::Given => Origin::DrawnOn,
            origin => origin,
        };
        Known { origin, ..self }
    }

    /// What it is to a symbol that is read this way round.
    pub fn reading(self, way: Way, reaches: &Reaches) -> Known {
        let agreed = match self.origin {
            _ if self.is_against(way) => reaches.alone(),
            Origin::Found(_) | Origin::FoundAcross(_) => self.agreed,
            _ => reaches.after(self.agreed.tones),
        };
        Known {
            agreed,
            // Between several symbols one may be missing, so that they need more.
            enough: reaches.alone().settles() || agreed.settles_stream(),
            ..self.telling(way)
        }
    }
}

/// What a verdict rests on.
#[derive(Clone, Copy, Debug)]
pub enum Ground {
    /// N is odd: the trellis code tells, whatever the register.
    Trellis(usize),
    /// Monitored tones that agree with this register, or do not.
    Tones(Known),
    /// The first monitored tone alone, which agrees with this register or does not.
    OneTone(Known),
    /// These monitored tones fit no register the other way round.
    OneWay(Reach),
    /// No tone is monitored and the trellis code does not tell.
    Nothing,
    /// The register is to be found, and these monitored tones do not give it.
    TooFew(Reach),
    /// No register gives these points, either way.
    NoRegister,
}

impl Verdict {
    /// What is told of a symbol of this family, of which its two ways say so: that it is a quarter turn
    /// is sure, whatever they leave open.
    pub fn of_family(self, family: Option<Family>) -> Verdict {
        match (family, self) {
            (Some(Family::Quarters), Verdict::Sure(way)) => Verdict::Sure(way),
            (Some(Family::Quarters), _) => Verdict::Quarter,
            (_, verdict) => verdict,
        }
    }

    /// The exit status: none that a refusal or a fault has.
    pub fn status(self) -> u8 {
        match self {
            Verdict::Sure(Way::Straight) => 0,
            Verdict::Sure(Way::Turned) => 32,
            Verdict::Sure(Way::QuarterLeft | Way::QuarterRight) | Verdict::Quarter => QUARTER,
            Verdict::CannotTell => CANNOT_TELL,
            Verdict::Neither => 34,
            Verdict::Perhaps(_) => 36,
        }
    }

    pub fn word(self) -> &'static str {
        match self {
            Verdict::Sure(way) => way.word(),
            Verdict::Quarter => "quarter",
            Verdict::Perhaps(Way::Straight) => "perhaps straight",
            Verdict::Perhaps(Way::Turned) => "perhaps turned",
            Verdict::Perhaps(Way::QuarterLeft) => "perhaps quarter left",
            Verdict::Perhaps(Way::QuarterRight) => "perhaps quarter right",
            Verdict::CannotTell => "cannot tell",
            Verdict::Neither => "neither",
        }
    }

    /// Whether it holds, if its condition does.
    pub fn is_sure(self) -> bool {
        matches!(self, Verdict::Sure(_) | Verdict::Quarter)
    }
}

impl Ground {
    /// Whether a sure verdict holds only if the register that was given is the writer's.
    pub fn is_conditional(&self) -> bool {
        match self {
            Ground::Tones(known) | Ground::OneTone(known) => {
                known.origin == Origin::Given && !known.enough
            }
            _ => false,
        }
    }
}
