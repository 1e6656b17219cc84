//! Symbols that the implementation wrote, turned by a quarter: its reading is held to the refusal that the
//! tables alone give, which takes the reference's place in a mismatch, and to the reference's reading.

use crate::compare::{Comparison, Mismatch};
use crate::coverage::Operation;
use crate::inputs::{packed_frame, valid_register};
use crate::lent::Lent;
use crate::points::classes;
use crate::quarters::{Outcome, Way};
use crate::random::Random;
use crate::tables::GivenTables;
use clevisroot_sys::refusals::{DONE, MONITOR, OFFGRID};
use clevisroot_sys::{Answer, Clip};
use reference::forms::Class;
use reference::points::Point;
use reference::quarter::{quarter_refusal, refusal_by_a_tone};
use reference::reordering::{nonzero_entries, reordered_bits};
use reference::words::{half_turn, lists_of, quarter_left, quarter_right};
use reference::{Mode, Tables};

/// A symbol of accepted tables as the implementation wrote it.
#[derive(Debug)]
struct Symbol<'a> {
    given: &'a GivenTables,
    frame: Vec<u8>,
    start: u8,
    register: u32,
    points: Vec<Point>,
}

/// What the implementation answered, the frame that it was lent, and whether that and its guards are as
/// they came.
struct Reading {
    answer: Answer,
    frame: Vec<u8>,
    untouched: bool,
}

fn is_monitored(tables: &Tables) -> bool {
    classes(tables).contains(&Class::Monitored)
}

fn n_is_odd(tables: &Tables) -> bool {
    nonzero_entries(&reordered_bits(tables)) % 2 == 1
}

impl Comparison<'_> {
    /// Of accepted tables, with frame size L: one symbol, either way.
    pub fn quarter_turns(
        &mut self,
        random: &mut Random,
        given: &GivenTables,
        l: usize,
    ) -> Result<(), Mismatch> {
        let symbol = self.written(random, given, l)?;
        let left = (Way::Left, quarter_left(&symbol.points));
        let right = (Way::Right, quarter_right(&symbol.points));
        for (way, turned) in [left, right] {
            self.hold_reading(random, &symbol, &turned)?;
            match given.tables.mode {
                Mode::Coded => self.hold_coded(random, &symbol, way, &turned)?,
                Mode::Uncoded => self.hold_uncoded(random, &symbol, &turned)?,
            }
        }
        if given.tables.mode == Mode::Coded && n_is_odd(&given.tables) {
            self.hold_half_turn(random, &symbol)?;
        }
        Ok(())
    }

    /// Any frame from any start, with any valid register.
    fn written<'a>(
        &mut self,
        random: &mut Random,
        given: &'a GivenTables,
        l: usize,
    ) -> Result<Symbol<'a>, Mismatch> {
        let start = random.below(8) as u8;
        let frame = packed_frame(random, l, start);
        let register = valid_register(random);
        let nsc = given.tables.nsc();
        let (mut x, mut y) = (vec![0; nsc], vec![0; nsc]);
        let (core, tables) = (self.core, given.lent());
        let answer = core.encode_at(tables, &frame, start, register, &mut x, &mut y);
        let inputs = (given, &frame, start, register);
        let number = answer.number;
        self.hold(Operation::EncodeAt, number, &DONE, &number, inputs)?;
        Ok(Symbol {
            given,
            frame,
            start,
            register,
            points: x.into_iter().zip(y).collect(),
        })
    }

    /// Points of the symbol's tables, read from this register to the symbol's start.
    fn reading(
        &self,
        random: &mut Random,
        symbol: &Symbol,
        points: &[Point],
        register: u32,
    ) -> Reading {
        let (x, y) = lists_of(points);
        let mut frame = Lent::<u8>::new(random, symbol.frame.len());
        let lent = frame.after(None);
        let (core, tables) = (self.core, symbol.given.lent());
        let answer = core.read_at(tables, &x, &y, register, frame.buffer(), symbol.start);
        Reading {
            answer,
            untouched: lent == frame.whole(),
            frame: frame.buffer().to_vec(),
        }
    }

    /// Both sides read the points from the symbol's own register alike.
    fn hold_reading(
        &mut self,
        random: &mut Random,
        symbol: &Symbol,
        points: &[Point],
    ) -> Result<(), Mismatch> {
        let (x, y) = lists_of(points);
        let room = (symbol.frame.len(), symbol.start);
        self.read(random, symbol.given, (&x, &y), symbol.register, room)
    }

    /// The one refusal for these tables, which writes nothing and hands the register back.
    fn hold_coded(
        &mut self,
        random: &mut Random,
        symbol: &Symbol,
        way: Way,
        turned: &[Point],
    ) -> Result<(), Mismatch> {
        let tables = &symbol.given.tables;
        let refusal = quarter_refusal(tables);
        let told = self.reading(random, symbol, turned, symbol.register);
        let expected = Answer {
            number: refusal.number(),
            place: refusal.place(),
            size: 0,
            reg: symbol.register,
        };
        let actual = (told.answer, told.untouched);
        let number = told.answer.number;
        let inputs = (way, symbol);
        self.hold(
            Operation::ReadAt,
            number,
            &(expected, true),
            &actual,
            inputs,
        )?;
        self.coverage
            .quarters
            .record_coded(tables, way, symbol.start);
        let number = self.hold_never_read(random, symbol, turned)?;
        self.coverage.quarters.record(match number {
            OFFGRID => Outcome::Other13,
            MONITOR => Outcome::Other14,
            _ if is_monitored(tables) => Outcome::Other15Monitored,
            _ => Outcome::Other15,
        });
        self.hold_neither(symbol, turned)
    }

    /// Refused with a register of its own, whatever the number, which is told.
    fn hold_never_read(
        &mut self,
        random: &mut Random,
        symbol: &Symbol,
        points: &[Point],
    ) -> Result<u32, Mismatch> {
        let reg = valid_register(random);
        let Reading {
            answer, untouched, ..
        } = self.reading(random, symbol, points, reg);
        let number = answer.number;
        let refused = (true, 0, reg, true);
        let actual = (number != DONE, answer.size, answer.reg, untouched);
        let inputs = ("another register", symbol, points);
        self.hold(Operation::ReadAt, number, &refused, &actual, inputs)?;
        Ok(number)
    }

    /// Where a tone is monitored, the clip check tells neither.
    fn hold_neither(&mut self, symbol: &Symbol, turned: &[Point]) -> Result<(), Mismatch> {
        if !is_monitored(&symbol.given.tables) {
            return Ok(());
        }
        let (x, y) = lists_of(turned);
        let reg = symbol.register;
        let lent = symbol.given.lent();
        let core = self.core;
        let actual = core.clip_check(lent.bits, lent.gains, lent.tones, &x, &y, reg);
        let expected = Clip {
            number: DONE,
            place: 0,
            clip: reference::clip::Clip::Neither.number(),
            reg,
        };
        self.coverage.quarters.record(Outcome::Neither);
        self.hold(
            Operation::ClipCheck,
            actual.number,
            &expected,
            &actual,
            (symbol, turned),
        )
    }

    /// With N odd, half a turn is not read either, whatever the register.
    fn hold_half_turn(&mut self, random: &mut Random, symbol: &Symbol) -> Result<(), Mismatch> {
        let turned = half_turn(&symbol.points);
        let number = self.hold_never_read(random, symbol, &turned)?;
        self.coverage.quarters.record(match number {
            MONITOR => Outcome::Half14,
            _ if is_monitored(&symbol.given.tables) => Outcome::Half15Monitored,
            _ => Outcome::Half15,
        });
        Ok(())
    }

    /// A 1-bit tone or a monitored one shows it; else it is read, and as the same frame if L is 0 only.
    fn hold_uncoded(
        &mut self,
        random: &mut Random,
        symbol: &Symbol,
        turned: &[Point],
    ) -> Result<(), Mismatch> {
        let tables = &symbol.given.tables;
        let told = self.reading(random, symbol, turned, symbol.register);
        let Answer { number, place, .. } = told.answer;
        let same = number == DONE && told.frame == symbol.frame;
        let empty = tables.bits.iter().all(|&bits| bits == 0);
        let expected = match refusal_by_a_tone(tables) {
            Some(refusal) => (refusal.number(), refusal.place(), false),
            None => (DONE, 0, empty),
        };
        let actual = (number, place, same);
        self.hold(
            Operation::ReadAt,
            number,
            &expected,
            &actual,
            (symbol, turned),
        )?;
        self.coverage.quarters.record(match number {
            OFFGRID => Outcome::Uncoded13,
            MONITOR => Outcome::Uncoded14,
            _ if same => Outcome::UncodedEmpty,
            _ => Outcome::UncodedRead,
        });
        Ok(())
    }
}
