//! Where answers go: standard output, standard error, and the files that `--out`, `--svg` and `--html`
//! name.

mod files;
mod progress;
mod report_text;
mod screen;

pub use files::{is_standard_output, same_file};
pub use report_text::Output;
pub use screen::{complain, print};
