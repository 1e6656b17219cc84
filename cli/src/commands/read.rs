//! `read`: points to frames.

use super::ground_fields::NO_QUARTER;
use super::picture::Picture;
use super::reading::{Reading, Tables};
use super::register_words::{not_checked_sentence, not_found_sentence};
use super::totals::Totals;
use super::verdict::CANNOT_TELL;
use crate::call::{Asked, Call};
use crate::fault::Fault;
use crate::files::{hex_lines, PointList};
use crate::json::Json;
use crate::output::Output;
use crate::register::{Finder, FoundRegister, Settled};
use crate::report::{done_words, fields, start_field, symbol_fields, Report, Written};
use crate::stream::{self, Reports, Task};
use crate::way::Family;
use clevisroot_sys::refusals::MONITOR;
use clevisroot_sys::RESET;

struct Read {
    tables: Tables,
    /// The register is to be found.
    find: bool,
    /// None while it has to be found.
    register: Option<u32>,
    finder: Finder,
    totals: Totals,
}

pub fn read(call: &Call) -> Result<u8, Fault> {
    let find = call.register == Asked::Find;
    let task = Read {
        tables: Tables::of(call)?,
        find,
        register: (!find).then(|| call.register.value()),
        finder: Finder::new(Family::Halves),
        totals: Totals::default(),
    };
    stream::run(call, task)
}

impl Task for Read {
    type Input = PointList;

    fn take(&mut self, number: usize, points: PointList, output: &Output) -> Reports {
        let symbol = (number, points);
        let register = self.register.unwrap_or(RESET);
        let reading = self.tables.read(&symbol.1, register);
        // What is refused before the register is looked at needs none.
        if !reading.is_of_points() {
            let mut reports = self.finish(output);
            reports.push(self.told(&symbol, register, &reading, None, output));
            return reports;
        }
        // A register that was found is found anew where a symbol may be missing.
        let out_of_step = self.find && reading.answer.number == MONITOR;
        if self.register.is_some() && !out_of_step {
            return vec![self.told(&symbol, register, &reading, None, output)];
        }
        self.register = None;
        let Tables { set, order, .. } = &self.tables;
        let settled = self.finder.push(set, order, symbol);
        self.settle(settled, output)
    }

    fn finish(&mut self, output: &Output) -> Reports {
        let settled = self.finder.finish();
        self.settle(settled, output)
    }

    fn are_tables_refused(&self) -> bool {
        self.tables.are_refused()
    }

    fn totals(&self) -> Report {
        self.totals.report()
    }
}

impl Read {
    fn settle(&mut self, settled: Vec<Settled>, output: &Output) -> Reports {
        let mut reports = Vec::new();
        for Settled { symbol, found } in settled {
            reports.push(match found {
                Some(found) if found.checked => {
                    let reading = self.tables.read(&symbol.1, found.register);
                    self.told(&symbol, found.register, &reading, Some(found), output)
                }
                // Points that are turned can look straight to such a register.
                Some(found) => self.not_found(symbol.0, not_checked_sentence(&self.tables, found)),
                None => self.not_found(symbol.0, not_found_sentence(&self.tables, &symbol.1)),
            });
        }
        reports
    }

    /// Reports a reading and carries the register on.
    fn told(
        &mut self,
        (number, points): &(usize, PointList),
        register: u32,
        reading: &Reading,
        found: Option<FoundRegister>,
        output: &Output,
    ) -> (usize, Report) {
        let mut report = self.report(register, reading);
        if let Some(FoundRegister { reach, .. }) = found {
            let condition = self
                .condition()
                .map_or(String::new(), |told| format!(", if {told}"));
            report.summary.push(format!(
                "register before {register}, found from {} monitored tones{condition}",
                reach.tones
            ));
        }
        // Points that are refused for what they are can be drawn too.
        if reading.is_of_points() && output.wants_picture(report.refused) {
            report.picture = Some(self.picture(*number, points, register, reading));
        }
        let lost = self.find && report.refused;
        self.register = (!lost).then_some(reading.answer.reg);
        let answered = Some(reading.answer.number);
        self.totals
            .add(*number, answered, report.status, self.register);
        (*number, report)
    }

    /// What has to be so for a register that was found to be the writer's: uncoded, some register may
    /// give the points of a symbol that is turned by a quarter.
    fn condition(&self) -> Option<&'static str> {
        (!self.tables.set.coded).then_some(NO_QUARTER)
    }

    fn report(&self, register: u32, reading: &Reading) -> Report {
        let mut json = symbol_fields("read", &reading.answer, self.tables.named_start);
        if self.find {
            json.push(("register_before", Json::Number(register.into())));
            json.push(("holds_if", self.condition().map_or(Json::Null, Json::text)));
        }
        if let Some(refusal) = &reading.refusal {
            return Report::refused_result(refusal, json);
        }
        let hex = hex_lines(&reading.frame);
        json.push(("frame", Json::text(hex.replace('\n', ""))));
        let span = self.tables.span(&reading.answer);
        let summary = done_words(span, reading.answer.reg);
        let mut report = Report::new(0, vec![summary], json);
        report.result = Some(Written {
            screen: hex.clone(),
            file: hex,
        });
        report
    }

    fn picture(
        &self,
        number: usize,
        points: &PointList,
        register: u32,
        reading: &Reading,
    ) -> String {
        let picture = Picture {
            tables: &self.tables,
            x: &points.x,
            y: &points.y,
            typed: Some(points),
            answer: &reading.answer,
        };
        let refusal = reading.refusal.as_ref();
        picture.draw(picture.caption(("read", number), register, refusal))
    }

    /// No register can be told, so that nothing can be read.
    fn not_found(&mut self, number: usize, sentence: String) -> (usize, Report) {
        let mut json = fields("read", [None; 4]);
        json.extend(start_field(self.tables.named_start));
        json.push(("sentence", Json::text(sentence.clone())));
        let mut report = Report::new(CANNOT_TELL, vec![sentence.clone()], json);
        report.reason = Some(sentence);
        self.register = None;
        self.totals.add(number, None, report.status, None);
        (number, report)
    }
}
