//! A second implementation of document 01, as amended, written from its text alone: lists of bits
//! and plain loops, with one module for each section and the section's letters. The plain rule,
//! [`plain`], is from request R-1 and the standard's figures.
//!
//! The calls are in [`operations`]. Each answers for all inputs.

pub mod clip;
pub mod coding;
pub mod figures;
pub mod filler;
pub mod forms;
pub mod nearest;
pub mod operations;
pub mod plain;
pub mod points;
pub mod quarter;
pub mod refusals;
pub mod reordering;
pub mod symbol;
pub mod tally;
pub mod words;

pub use forms::{Mode, Tables};
pub use operations::{check, clip_check, draw, encode, encode_at, map_label, plain_map_label};
pub use operations::{plain_read_point, read, read_at, read_nearest, read_point, reorder};
pub use operations::{tally_entry, tally_new, Answer};
