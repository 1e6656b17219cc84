//! A table set with its order, and readings with it.

use crate::ask::{self, Order};
use crate::call::Call;
use crate::fault::Fault;
use crate::files::{read_tables, PointList, TableSet};
use crate::refusal::{is_of_points, Question, Refusal};
use crate::register::Reaches;
use crate::span::Span;
use clevisroot_sys::refusals::DONE;
use clevisroot_sys::{self as library, Answer};

pub struct Tables {
    pub set: TableSet,
    pub order: Order,
    /// What its monitored tones can tell.
    pub reaches: Reaches,
    /// The register as it was typed.
    typed: Option<String>,
    /// The bit of its first byte at which a frame starts, if the call names one.
    pub named_start: Option<u8>,
}

/// What the library answers for points and a register.
pub struct Reading {
    pub answer: Answer,
    pub frame: Vec<u8>,
    pub refusal: Option<Refusal>,
}

impl Tables {
    /// The table set that the first operand names.
    pub fn of(call: &Call) -> Result<Tables, Fault> {
        let set = read_tables(&call.operands[0])?;
        let (_, order) = ask::order(&set);
        let reaches = Reaches::of(&set, &order);
        Ok(Tables {
            set,
            order,
            reaches,
            typed: call.register.typed().map(str::to_string),
            named_start: call.start,
        })
    }

    /// The bit of its first byte at which a frame starts.
    pub fn start(&self) -> u8 {
        self.named_start.unwrap_or(0)
    }

    /// The bits of the frame that an answer is about.
    pub fn span(&self, answer: &Answer) -> Span {
        Span {
            start: self.start(),
            size: answer.size,
        }
    }

    /// Whether the tables themselves are refused.
    pub fn are_refused(&self) -> bool {
        library::check(self.set.lent()).number != DONE
    }

    /// A question about these tables and a register.
    pub fn question(&self, register: u32) -> Question<'_> {
        Question {
            start: self.start(),
            register,
            typed: self.typed.as_deref(),
            ..Question::of_tables(&self.set)
        }
    }

    pub fn read(&self, points: &PointList, register: u32) -> Reading {
        let lists = (points.x.as_slice(), points.y.as_slice());
        let (answer, frame) = ask::read(&self.set, lists, register, self.start());
        let question = Question {
            points: Some(points),
            ..self.question(register)
        };
        let refusal = (answer.number != DONE).then(|| question.refusal(&answer));
        Reading {
            answer,
            frame,
            refusal,
        }
    }
}

impl Reading {
    pub fn is_done(&self) -> bool {
        self.answer.number == DONE
    }

    /// Whether the points were looked at: nothing else was refused.
    pub fn is_of_points(&self) -> bool {
        self.is_done() || is_of_points(self.answer.number)
    }
}
