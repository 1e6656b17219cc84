//! `turn`: reads the points as they came and turned, by half a turn and of coded tables by a quarter
//! too, and tells the jointer.

use super::judge::Judged;
use super::picture::{titled, Picture};
use super::reading::Tables;
use super::readings::Readings;
use super::verdict::{Known, Origin};
use super::verdict_totals::VerdictTotals;
use crate::call::{Asked, Call};
use crate::fault::Fault;
use crate::files::PointList;
use crate::json::Fields;
use crate::output::Output;
use crate::refusal::Refusal;
use crate::register::{Finder, FoundRegister, Settled};
use crate::report::{symbol_fields, Report};
use crate::stream::{self, Reports, Task};
use crate::way::Family;
use clevisroot_sys::RESET;

struct Turn {
    tables: Tables,
    /// The register is to be found.
    find: bool,
    /// None while the register has to be found.
    known: Option<Known>,
    finder: Finder,
    totals: VerdictTotals,
}

pub fn turn(call: &Call) -> Result<u8, Fault> {
    let find = call.register == Asked::Find;
    let tables = Tables::of(call)?;
    let task = Turn {
        find,
        known: (!find).then(|| Known::asked(&call.register)),
        finder: Finder::new(Family::Halves),
        totals: VerdictTotals::of_readings(tables.set.coded),
        tables,
    };
    stream::run(call, task)
}

impl Task for Turn {
    type Input = PointList;

    fn take(&mut self, number: usize, points: PointList, output: &Output) -> Reports {
        let register = self.known.map_or(RESET, |known| known.register);
        let reading = self.tables.read(&points, register);
        // Whatever is refused before the points are looked at is no word on the clips.
        if let Some(refusal) = reading.refusal.as_ref().filter(|_| !reading.is_of_points()) {
            let mut reports = self.finish(output);
            let json = symbol_fields("turn", &reading.answer, self.tables.named_start);
            reports.push((number, self.refused(refusal, json)));
            return reports;
        }
        if let Some(known) = self.known {
            let judged = Judged::of(&self.tables, &points, Some(known));
            // A register that was found is found anew where a symbol may be missing.
            if !(self.find && judged.is_out_of_step(known)) {
                return vec![(number, self.told(number, &points, &judged, output))];
            }
            self.known = None;
        }
        let mut reports = self.follow(&points, output);
        let Tables { set, order, .. } = &self.tables;
        let settled = self.finder.push(set, order, (number, points));
        reports.extend(self.settle(settled, output));
        reports
    }

    fn finish(&mut self, output: &Output) -> Reports {
        let settled = self.finder.finish();
        self.settle(settled, output)
    }

    fn are_tables_refused(&self) -> bool {
        self.tables.are_refused()
    }

    fn totals(&self) -> Report {
        self.totals.report()
    }
}

impl Turn {
    /// Takes the points that wait for a register in the family of these. Those of another family are
    /// no neighbours of theirs: they wait no longer.
    fn follow(&mut self, points: &PointList, output: &Output) -> Reports {
        let family = Readings::fitted(&self.tables, points).family();
        match family {
            Some(family) if family != self.finder.family => {
                let reports = self.finish(output);
                self.finder = Finder::new(family);
                self.known = None;
                reports
            }
            _ => Vec::new(),
        }
    }

    fn settle(&mut self, settled: Vec<Settled>, output: &Output) -> Reports {
        let mut reports = Vec::new();
        for Settled { symbol, found } in settled {
            let (number, points) = symbol;
            let judged = Judged::of(&self.tables, &points, found.map(known));
            reports.push((number, self.told(number, &points, &judged, output)));
        }
        reports
    }

    /// Tables, points or register are refused, so that there is no verdict. The writer has drawn for
    /// the symbol all the same.
    fn refused(&mut self, refusal: &Refusal, json: Fields) -> Report {
        let report = Report::refused(refusal, json);
        self.totals.add_refused(report.status);
        self.known = self.known.and_then(|known| self.handed_back(known));
        report
    }

    /// Reports a judgement and carries the register on.
    fn told(
        &mut self,
        number: usize,
        points: &PointList,
        judged: &Judged,
        output: &Output,
    ) -> Report {
        self.known = self.carried(judged);
        let conditional = judged.ground.is_conditional();
        self.totals.add(judged.seen, judged.family, conditional);
        let mut report = judged.report(&self.tables);
        if output.wants_picture(report.refused) {
            report.picture = Some(self.picture(number, points, judged));
        }
        report
    }

    /// The register for the next symbol: the one after the draws if this one was read, else as it
    /// is handed back.
    fn carried(&self, judged: &Judged) -> Option<Known> {
        let known = judged.known?;
        match judged.readings.read() {
            Some(read) => {
                let known = match judged.readings.only_way() {
                    Some(way) => known.reading(way, &self.tables.reaches),
                    None => known,
                };
                Some(Known {
                    register: read.answer.reg,
                    carried: true,
                    ..known
                })
            }
            None => self.handed_back(known),
        }
    }

    /// The register after a refused symbol. One that was found is found anew.
    fn handed_back(&self, known: Known) -> Option<Known> {
        (!self.find).then(|| Known::new(known.register, Origin::HandedBack))
    }

    fn picture(&self, number: usize, points: &PointList, judged: &Judged) -> String {
        let straight = judged.readings.straight();
        let picture = Picture {
            tables: &self.tables,
            x: &points.x,
            y: &points.y,
            typed: Some(points),
            answer: &straight.answer,
        };
        let refused = straight.refusal.as_ref().map_or(String::new(), |refusal| {
            let (title, spot) = (refusal.title(), &refusal.spot);
            format!("; as they came refused, {title} {spot}")
        });
        let word = judged.verdict().word();
        picture.draw(format!("{}: {word}{refused}", titled("turn", number)))
    }
}

fn known(found: FoundRegister) -> Known {
    let origin = match found.checked {
        true => Origin::Found(found.reach.tones),
        false => Origin::FoundAcross(found.reach.tones),
    };
    Known {
        agreed: found.reach,
        ..Known::new(found.register, origin)
    }
}
