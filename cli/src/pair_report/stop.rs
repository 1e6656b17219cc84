//! Why there is no report.

use crate::fault::Fault;
use crate::refusal::Refusal;

pub enum Stop {
    Fault(Fault),
    /// The library refuses a symbol or a table set, at this place.
    Refused(Box<Refusal>, u32),
}

impl Stop {
    /// A symbol that is not counted.
    pub fn entry(refusal: Refusal) -> Stop {
        Stop::Refused(Box::new(refusal), 0)
    }
}

impl From<Fault> for Stop {
    fn from(fault: Fault) -> Stop {
        Stop::Fault(fault)
    }
}
