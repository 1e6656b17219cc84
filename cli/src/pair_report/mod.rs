//! The report of a pair: what the library counted over its symbols, in words, as a table, and as a
//! page that prints on one sheet.

mod count;
mod counting;
mod csv;
mod fields;
mod make;
mod meaning;
mod page;
mod pair;
mod rate;
mod reading;
mod refusals;
mod remarks;
mod sheet;
mod source;
mod stop;
mod strip;
mod strip_picture;
mod text;
mod turned;
mod verdict;

pub use csv::rows;
pub use fields::list;
pub use make::{of_files, of_log};
pub use page::page;
pub use pair::Pair;
pub use stop::Stop;
pub use text::lines;
