//! `encode`: frames to points.

use super::picture::Picture;
use super::reading::Tables;
use super::totals::Totals;
use crate::ask::{self, Order, Points};
use crate::call::Call;
use crate::fault::Fault;
use crate::files::{Frame, TableSet};
use crate::json::{Fields, Json};
use crate::output::Output;
use crate::refusal::Question;
use crate::report::{done_words, symbol_fields, Report, Written};
use crate::stream::{self, Reports, Task};
use clevisroot_sys::refusals::DONE;
use clevisroot_sys::Answer;
use std::fmt::Write;

struct Encode {
    tables: Tables,
    register: u32,
    /// A remark on each place: whose point it is.
    remarks: Vec<String>,
    totals: Totals,
}

pub fn encode(call: &Call) -> Result<u8, Fault> {
    let tables = Tables::of(call)?;
    let task = Encode {
        register: call.register.value(),
        remarks: remarks(&tables.set, &tables.order),
        tables,
        totals: Totals::default(),
    };
    stream::run(call, task)
}

impl Task for Encode {
    type Input = Frame;

    fn take(&mut self, number: usize, frame: Frame, output: &Output) -> Reports {
        let Tables { set, .. } = &self.tables;
        let start = self.tables.start();
        let (answer, points) = ask::encode(set, &frame.bytes, start, self.register);
        let mut report = match answer.number {
            DONE => self.done(&answer, &points),
            _ => {
                let question = Question {
                    frame: Some(&frame),
                    ..self.tables.question(self.register)
                };
                let refusal = question.refusal(&answer);
                Report::refused_result(&refusal, self.fields(&answer))
            }
        };
        if answer.number == DONE && output.wants_picture(false) {
            report.picture = Some(self.picture(number, &answer, &points));
        }
        self.register = answer.reg;
        let register = Some(answer.reg);
        self.totals
            .add(number, Some(answer.number), report.status, register);
        vec![(number, report)]
    }

    fn finish(&mut self, _: &Output) -> Reports {
        Vec::new()
    }

    fn are_tables_refused(&self) -> bool {
        self.tables.are_refused()
    }

    fn totals(&self) -> Report {
        self.totals.report()
    }
}

impl Encode {
    fn fields(&self, answer: &Answer) -> Fields {
        symbol_fields("encode", answer, self.tables.named_start)
    }

    fn done(&self, answer: &Answer, points: &Points) -> Report {
        let mut json = self.fields(answer);
        json.push(("tones", Json::numbers(&self.tables.order.tones)));
        json.push(("x", Json::numbers(&points.x)));
        json.push(("y", Json::numbers(&points.y)));
        let summary = done_words(self.tables.span(answer), answer.reg);
        let mut report = Report::new(0, vec![summary], json);
        report.result = Some(Written {
            screen: csv(points, &self.remarks),
            file: csv(points, &[]),
        });
        report
    }

    fn picture(&self, number: usize, answer: &Answer, points: &Points) -> String {
        let picture = Picture {
            tables: &self.tables,
            x: &points.x,
            y: &points.y,
            typed: None,
            answer,
        };
        picture.draw(picture.caption(("encode", number), self.register, None))
    }
}

fn remarks(set: &TableSet, order: &Order) -> Vec<String> {
    let remark = |(place, tone)| {
        format!(
            "# place {place}: sub-carrier {tone}, {}",
            set.class_of(tone)
        )
    };
    order.places().map(remark).collect()
}

/// The points as a points file has them, with remarks if there are any.
fn csv(points: &Points, remarks: &[String]) -> String {
    let mut text = "x,y\n".to_string();
    for (place, (x, y)) in points.x.iter().zip(&points.y).enumerate() {
        let start = text.len();
        // Writing to a String cannot fail.
        let _ = write!(text, "{x},{y}");
        if let Some(remark) = remarks.get(place) {
            let width = text.len() - start;
            let _ = write!(text, "{:1$}{remark}", "", 10_usize.saturating_sub(width));
        }
        text.push('\n');
    }
    text
}
