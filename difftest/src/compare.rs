//! One call made of both sides, and the answers held against each other.

use crate::coverage::{Coverage, Operation};
use crate::lent::Lent;
use crate::points::classes;
use crate::random::Random;
use crate::tables::GivenTables;
use crate::under_test::Core;
use clevisroot_sys::refusals::{DONE, FRAME, MONITOR};
use clevisroot_sys::{Answer, Drawn, Label, Point};
use reference::forms::Class;
use std::fmt::Debug;

/// The operation, both answers and the inputs, for a person to read.
pub type Mismatch = String;

/// Compares calls to one implementation and counts the numbers that came.
pub struct Comparison<'a> {
    pub core: &'a dyn Core,
    pub coverage: Coverage,
}

impl Comparison<'_> {
    pub fn check(&mut self, given: &GivenTables) -> Result<(), Mismatch> {
        let expected = answer(&reference::check(&given.tables));
        let actual = self.core.check(given.lent());
        self.hold(Operation::Check, expected.number, &expected, &actual, given)
    }

    pub fn reorder(
        &mut self,
        random: &mut Random,
        given: &GivenTables,
        rooms: (usize, usize),
    ) -> Result<(), Mismatch> {
        let mut tones = Lent::<u16>::new(random, rooms.0);
        let mut bits = Lent::<u8>::new(random, rooms.1);
        let told = reference::reorder(&given.tables, rooms.0, rooms.1);
        let (tones_after, bits_after) = match &told.contents {
            Some((t, b)) => (tones.after(Some(t)), bits.after(Some(b))),
            None => (tones.after(None), bits.after(None)),
        };
        let actual = self
            .core
            .reorder(given.lent(), tones.buffer(), bits.buffer());
        let expected = (answer(&told), tones_after, bits_after);
        let actual = (actual, tones.whole().to_vec(), bits.whole().to_vec());
        let inputs = (given, rooms);
        self.hold(Operation::Reorder, told.number, &expected, &actual, inputs)
    }

    /// Encodes a frame from its start. Where that is 0, the call without a start must do the same.
    pub fn encode(
        &mut self,
        random: &mut Random,
        given: &GivenTables,
        (frame, start): (&[u8], u8),
        register: u32,
        rooms: (usize, usize),
    ) -> Result<(), Mismatch> {
        let mut x = Lent::<i16>::new(random, rooms.0);
        let mut y = Lent::<i16>::new(random, rooms.1);
        let told = reference::encode_at(&given.tables, frame, start, register, rooms.0, rooms.1);
        let lists = told.contents.as_deref().map(reference::words::lists_of);
        let (x_after, y_after) = match &lists {
            Some((xs, ys)) => (x.after(Some(xs)), y.after(Some(ys))),
            None => (x.after(None), y.after(None)),
        };
        let expected = (answer(&told), x_after, y_after);
        let inputs = (given, frame, start, register, rooms);
        let (core, tables) = (self.core, given.lent());
        if start == 0 {
            let (mut x, mut y) = (x.clone(), y.clone());
            let actual = core.encode(tables, frame, register, x.buffer(), y.buffer());
            let actual = (actual, x.whole().to_vec(), y.whole().to_vec());
            self.hold(Operation::Encode, told.number, &expected, &actual, inputs)?;
        }
        let actual = core.encode_at(tables, frame, start, register, x.buffer(), y.buffer());
        let actual = (actual, x.whole().to_vec(), y.whole().to_vec());
        self.record_filler(Operation::EncodeAt, &answer(&told), given);
        self.coverage.encoded.record(start, &answer(&told));
        if told.number == FRAME {
            let l = reference::check(&given.tables).size as usize;
            self.coverage.refused.record(frame, start, l);
        }
        self.hold(Operation::EncodeAt, told.number, &expected, &actual, inputs)
    }

    /// Reads points to a frame from its start. Where that is 0, the call without a start must do the
    /// same.
    pub fn read(
        &mut self,
        random: &mut Random,
        given: &GivenTables,
        (x, y): (&[i16], &[i16]),
        register: u32,
        (room, start): (usize, u8),
    ) -> Result<(), Mismatch> {
        let mut frame = Lent::<u8>::new(random, room);
        let told = reference::read_at(&given.tables, x, y, register, room, start);
        let expected = (answer(&told), frame.after(told.contents.as_deref()));
        let inputs = (given, x, y, register, room, start);
        let (core, tables) = (self.core, given.lent());
        if start == 0 {
            let mut frame = frame.clone();
            let actual = core.read(tables, x, y, register, frame.buffer());
            let actual = (actual, frame.whole().to_vec());
            self.hold(Operation::Read, told.number, &expected, &actual, inputs)?;
        }
        let actual = core.read_at(tables, x, y, register, frame.buffer(), start);
        let actual = (actual, frame.whole().to_vec());
        self.record_filler(Operation::ReadAt, &answer(&told), given);
        self.coverage.read.record(start, &answer(&told));
        self.hold(Operation::ReadAt, told.number, &expected, &actual, inputs)
    }

    pub fn map_label(&mut self, bits: u8, label: u32) -> Result<(), Mismatch> {
        let expected = point(&reference::map_label(bits, label));
        let actual = self.core.map_label(bits, label);
        let (number, inputs) = (expected.number, (bits, label));
        self.hold(Operation::MapLabel, number, &expected, &actual, inputs)
    }

    pub fn read_point(&mut self, bits: u8, x: i16, y: i16) -> Result<(), Mismatch> {
        let expected = label(&reference::read_point(bits, x, y));
        let actual = self.core.read_point(bits, x, y);
        let (number, inputs) = (expected.number, (bits, x, y));
        self.hold(Operation::ReadPoint, number, &expected, &actual, inputs)
    }

    pub fn draw(&mut self, register: u32) -> Result<(), Mismatch> {
        let told = reference::draw(register);
        let number = told.number;
        let bit = u32::from(told.contents.unwrap_or(false));
        let reg = told.register;
        let expected = Drawn { number, bit, reg };
        let actual = self.core.draw(register);
        self.hold(Operation::Draw, number, &expected, &actual, register)
    }

    /// Counts the symbols with a monitored tone behind a silent one, which has drawn before it; where
    /// 14 refuses, the refused tone must be such.
    fn record_filler(&mut self, operation: Operation, told: &Answer, given: &GivenTables) {
        if ![DONE, MONITOR].contains(&told.number) {
            return;
        }
        let classes = classes(&given.tables);
        let silent = classes.iter().position(|&class| class == Class::Silent);
        let monitored = match told.number {
            MONITOR => Some(told.place as usize),
            _ => classes.iter().rposition(|&class| class == Class::Monitored),
        };
        if silent.is_some() && silent < monitored {
            self.coverage.record_behind_silent(operation, told.number);
        }
    }

    /// Counts the number that a call gave, and holds its answer to the reference's.
    pub fn hold<A: PartialEq + Debug>(
        &mut self,
        operation: Operation,
        number: u32,
        expected: &A,
        actual: &A,
        inputs: impl Debug,
    ) -> Result<(), Mismatch> {
        self.coverage.record(operation, number);
        self.alike(operation, expected, actual, inputs)
    }

    pub fn alike<A: PartialEq + Debug>(
        &self,
        operation: Operation,
        expected: &A,
        actual: &A,
        inputs: impl Debug,
    ) -> Result<(), Mismatch> {
        if expected == actual {
            return Ok(());
        }
        let name = operation.name();
        Err(format!(
            "{name} (each buffer has 4 guards at either end)\n\
             reference {expected:?}\nlibrary   {actual:?}\ninputs    {inputs:?}"
        ))
    }
}

pub fn answer<C>(told: &reference::Answer<C>) -> Answer {
    Answer {
        number: told.number,
        place: told.place,
        size: told.size,
        reg: told.register,
    }
}

/// A refusal carries no point.
pub fn point(told: &reference::Answer<reference::points::Point>) -> Point {
    let number = told.number;
    let (x, y) = told.contents.unwrap_or((0, 0));
    Point { number, x, y }
}

/// A refusal carries no label.
pub fn label(told: &reference::Answer<u32>) -> Label {
    let number = told.number;
    let label = told.contents.unwrap_or(0);
    Label { number, label }
}
