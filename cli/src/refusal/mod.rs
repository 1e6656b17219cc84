//! Refusals in words: the name, the place as what it is, and a sentence that helps. Numbers and
//! names are `clevisroot_sys::refusals`.

mod entry;
mod place;
mod question;
mod sentences;
mod told;

pub use entry::EntryPlace;
pub use place::{is_of_points, refused_places};
pub use question::Question;
pub use told::{title, Refusal};
