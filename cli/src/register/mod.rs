//! The filler register: where its value comes from, and how it is found from points.

mod draws;
mod equations;
mod finder;
mod reach;
mod search;
#[cfg(test)]
mod tests;

pub use draws::{after_draws, filler_point};
pub use finder::{Finder, FoundRegister, Settled};
pub use reach::{or_a_few_more, Reach, Reaches, ENOUGH_TONES, TONES_OF_STREAM, UNSEEN};
pub use search::{Found, Search};
