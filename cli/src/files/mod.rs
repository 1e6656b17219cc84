//! The files a person writes: lines of text, where `#` begins a comment.

mod frame;
mod lines;
mod log;
mod log_head;
mod numbers;
mod points;
mod source;
mod symbols;
mod table_file;
mod tables;

pub use frame::{hex_lines, Frame};
pub use log::{Log, LogEntry, Received};
pub use log_head::{Head, Unread};
pub use numbers::{register_number, saturating, signed};
pub use points::PointList;
pub use source::name_of;
pub use symbols::{SymbolText, Symbols};
pub use table_file::read_tables;
pub use tables::{Class, Entry, TableSet};
