//! `nearest`: received points to the frames whose points are nearest.

use super::decision::Decision;
use super::distance_totals::DistanceTotals;
use super::distance_words::{list, table, whole};
use super::picture::Picture;
use super::reading::Tables;
use crate::call::Call;
use crate::fault::Fault;
use crate::files::{hex_lines, PointList};
use crate::json::{Fields, Json};
use crate::options::ALL;
use crate::output::Output;
use crate::report::{done_words, symbol_fields, Report, Written};
use crate::stream::{self, Reports, Task};
use crate::words::count;

struct Nearest {
    tables: Tables,
    register: u32,
    /// Every loaded tone is to be shown.
    all: bool,
    totals: DistanceTotals,
}

pub fn nearest(call: &Call) -> Result<u8, Fault> {
    let task = Nearest {
        tables: Tables::of(call)?,
        register: call.register.value(),
        all: call.has(&ALL),
        totals: DistanceTotals::default(),
    };
    stream::run(call, task)
}

impl Task for Nearest {
    type Input = PointList;

    fn take(&mut self, number: usize, points: PointList, output: &Output) -> Reports {
        let decision = self.tables.nearest(&points, self.register);
        let fields = symbol_fields("nearest", &decision.answer, self.tables.named_start);
        let mut report = match &decision.refusal {
            None => self.done(&decision, fields),
            Some(refusal) => Report::refused_result(refusal, fields),
        };
        if decision.is_of_points() && output.wants_picture(report.refused) {
            report.picture = Some(self.picture(number, &points, &decision));
        }
        self.totals.add(number, &decision, report.status);
        self.register = decision.answer.reg;
        vec![(number, report)]
    }

    fn finish(&mut self, _: &Output) -> Reports {
        Vec::new()
    }

    fn are_tables_refused(&self) -> bool {
        self.tables.are_refused()
    }

    fn totals(&self) -> Report {
        self.totals.report(self.all)
    }
}

impl Nearest {
    fn done(&self, decision: &Decision, mut fields: Fields) -> Report {
        let Decision {
            answer,
            total,
            loaded,
            monitored,
            ..
        } = decision;
        let hex = hex_lines(&decision.frame);
        fields.extend([
            ("frame", Json::text(hex.replace('\n', ""))),
            ("total", whole(*total)),
            ("loaded", list(loaded)),
            ("monitored", monitored.json()),
        ]);
        let mut summary = vec![done_words(self.tables.span(answer), answer.reg)];
        summary.extend(table(&format!("total {total}"), loaded, self.all));
        summary.extend(monitored.words(self.register));
        let mut report = Report::new(0, summary, fields);
        report.result = Some(Written {
            screen: hex.clone(),
            file: hex,
        });
        report
    }

    fn picture(&self, number: usize, points: &PointList, decision: &Decision) -> String {
        let picture = Picture {
            tables: &self.tables,
            x: &points.x,
            y: &points.y,
            typed: Some(points),
            answer: &decision.answer,
        };
        let refusal = decision.refusal.as_ref();
        let caption = picture.caption(("nearest", number), self.register, refusal);
        match refusal {
            Some(_) => picture.draw(caption),
            None => {
                let (total, loaded) = (decision.total, decision.loaded.len());
                let loaded = count(loaded, "loaded tone");
                let caption = format!("{caption}; total {total} over {loaded}");
                picture.draw_compared(&decision.decided, caption)
            }
        }
    }
}
