//! All that is said of a refusal.

use super::question::Question;
use super::{place, sentences};
use crate::json::Fields;
use clevisroot_sys::refusals::name;
use clevisroot_sys::Answer;

pub struct Refusal {
    pub number: u32,
    /// What the place counts; none where it is 0 for lack of one.
    pub place_is: Option<&'static str>,
    pub place: String,
    /// The same without the line of the file.
    pub spot: String,
    pub sentence: String,
    /// The place in fields: sub-carrier, the pair's tones, file and line.
    pub details: Fields,
}

impl Question<'_> {
    pub fn refusal(&self, answer: &Answer) -> Refusal {
        let found = place::of(self, answer);
        Refusal {
            number: answer.number,
            place_is: found.kind,
            place: found.words(),
            spot: found.spot(),
            sentence: sentences::sentence(self, answer),
            details: found.fields(),
        }
    }
}

impl Refusal {
    pub fn title(&self) -> String {
        title(self.number)
    }
}

/// "14 MONITOR"
pub fn title(number: u32) -> String {
    format!("{number} {}", name(number))
}
