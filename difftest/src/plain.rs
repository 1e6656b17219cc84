//! The plain mapper's calls: held to the reference's plain rule, and to the other mapper's answers, which
//! then take the reference's place in a mismatch.

use crate::compare::{label, point, Comparison, Mismatch};
use crate::coverage::Operation;

impl Comparison<'_> {
    pub fn plain_map_label(&mut self, bits: u8, label: u32) -> Result<(), Mismatch> {
        let operation = Operation::PlainMapLabel;
        let expected = point(&reference::plain_map_label(bits, label));
        let actual = self.core.plain_map_label(bits, label);
        let (number, inputs) = (expected.number, (bits, label));
        self.hold(operation, number, &expected, &actual, inputs)?;
        let other = self.core.map_label(bits, label);
        self.alike(operation, &other, &actual, ("both mappers", inputs))
    }

    pub fn plain_read_point(&mut self, bits: u8, x: i16, y: i16) -> Result<(), Mismatch> {
        let operation = Operation::PlainReadPoint;
        let expected = label(&reference::plain_read_point(bits, x, y));
        let actual = self.core.plain_read_point(bits, x, y);
        let (number, inputs) = (expected.number, (bits, x, y));
        self.hold(operation, number, &expected, &actual, inputs)?;
        let other = self.core.read_point(bits, x, y);
        self.alike(operation, &other, &actual, ("both mappers", inputs))
    }

    /// A label by each mapper.
    pub fn map_by_both(&mut self, bits: u8, label: u32) -> Result<(), Mismatch> {
        self.map_label(bits, label)?;
        self.plain_map_label(bits, label)
    }

    /// A point by each mapper.
    pub fn read_by_both(&mut self, bits: u8, x: i16, y: i16) -> Result<(), Mismatch> {
        self.read_point(bits, x, y)?;
        self.plain_read_point(bits, x, y)
    }
}
