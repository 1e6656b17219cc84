//! A picture of one symbol: its points, grouped by bit count, and the bit loading; of received points
//! beside the decided ones too. It is in black
//! and grey, and shapes and hatching tell things apart, so that it can be printed.

mod axis;
mod comparison;
mod distances;
mod groups;
mod layout;
mod legend;
mod loading;
mod page;
mod panels;
mod pen;
mod plot;
mod scale;
mod symbol;
mod vector_panels;
mod vectors;

pub use comparison::draw as draw_compared;
pub use page::draw;
pub use pen::{block, escaped, Pen};
pub use symbol::{Compared, Symbol};
