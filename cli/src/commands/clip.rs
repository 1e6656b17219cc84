//! `clip`: asks the first monitored tone whether the clips are the wrong way round, before the whole
//! symbol is read.

use super::clip_said::Said;
use super::clip_words::sentence;
use super::first_tone::FirstTone;
use super::ground_fields::ground_fields;
use super::reading::Tables;
use super::verdict::Known;
use super::verdict_theorems::theorems_of_one_tone;
use super::verdict_totals::VerdictTotals;
use crate::ask;
use crate::call::Call;
use crate::fault::Fault;
use crate::files::{PointList, TableSet};
use crate::json::Json;
use crate::output::Output;
use crate::refusal::Question;
use crate::register::after_draws;
use crate::report::{clip_fields, Report};
use crate::stream::{self, Reports, Task};
use crate::way::{Family, Way};
use clevisroot_sys::clips;
use clevisroot_sys::refusals::DONE;
use clevisroot_sys::{self as library, Answer};

struct Clip {
    tables: Tables,
    /// None where no tone is monitored.
    first: Option<FirstTone>,
    /// The draws of a symbol.
    draws: usize,
    known: Known,
    totals: VerdictTotals,
}

pub fn clip(call: &Call) -> Result<u8, Fault> {
    let tables = Tables::of(call)?;
    if !tables.set.coded {
        return Err(uncoded(&tables.set));
    }
    let task = Clip {
        first: FirstTone::of(&tables),
        draws: 2 * tables.order.without_bits(&tables.set).count(),
        tables,
        known: Known::asked(&call.register),
        totals: VerdictTotals::of_one_tone(),
    };
    stream::run(call, task)
}

fn uncoded(set: &TableSet) -> Fault {
    Fault::content(format!(
        "{}:{}: `mode uncoded`, but `clip` is for coded tables, because the promise on turned symbols \
         is of coded ones, and because t' may be another one if these are taken as coded; `turn` \
         takes uncoded ones too",
        set.name, set.mode_line
    ))
}

impl Task for Clip {
    type Input = PointList;

    fn take(&mut self, number: usize, points: PointList, _: &Output) -> Reports {
        let lists = (points.x.as_slice(), points.y.as_slice());
        let answer = ask::clip(&self.tables.set, lists, self.known.register);
        let (report, known) = match answer.number {
            DONE => self.judged(&points, &answer),
            _ => (self.refused(&points, &answer), self.known.doubted()),
        };
        // The writer has drawn for the symbol, whatever the answer is.
        self.known = Known {
            register: after_draws(known.register, self.draws),
            carried: true,
            ..known
        };
        vec![(number, report)]
    }

    fn finish(&mut self, _: &Output) -> Reports {
        Vec::new()
    }

    fn are_tables_refused(&self) -> bool {
        self.tables.are_refused()
    }

    fn totals(&self) -> Report {
        self.totals.report()
    }
}

impl Clip {
    /// Reports what the tone says, and what that makes of the register.
    fn judged(&mut self, points: &PointList, answer: &library::Clip) -> (Report, Known) {
        let register = self.known.register;
        let tone = self.first.map(|first| first.in_symbol(points, register));
        let said = Said::of(answer.clip, self.quarter(points, answer), self.known);
        let (verdict, ground) = (said.verdict(), said.ground());
        let theorems = theorems_of_one_tone(verdict);
        let rests_on = ground_fields(verdict, &ground, true, &theorems);
        // One tone makes no family sure.
        self.totals.add(verdict, None, ground.is_conditional());
        let sentence = sentence(&said, &self.tables);
        let mut json = clip_fields("clip", answer);
        json.extend([
            ("verdict", Json::text(verdict.word())),
            ("sure", Json::Flag(verdict.is_sure())),
            ("rests_on", Json::Object(rests_on)),
            ("tone", tone.as_ref().map_or(Json::Null, |tone| tone.json())),
            ("sentence", Json::text(sentence.clone())),
        ]);
        let mut summary = vec![sentence];
        summary.extend(tone.map(|tone| format!("looked at: {}", tone.words())));
        let report = Report::new(verdict.status(), summary, json);
        (report, said.known_after(self.known))
    }

    /// The quarter turn after which the tone has the point that its filler bits give. The library knows
    /// none: it is asked again for the points turned back.
    fn quarter(&self, points: &PointList, answer: &library::Clip) -> Option<Way> {
        let is_straight = |way: &Way| {
            let points = points.undone(*way);
            let lists = (points.x.as_slice(), points.y.as_slice());
            ask::clip(&self.tables.set, lists, self.known.register).clip == clips::STRAIGHT
        };
        let ways = Family::Quarters.ways().into_iter();
        ways.filter(|_| answer.clip == clips::NEITHER)
            .find(is_straight)
    }

    /// Tables, points or register are refused, so that there is no verdict.
    fn refused(&mut self, points: &PointList, answer: &library::Clip) -> Report {
        let question = Question {
            points: Some(points),
            only: self.first.map(|first| first.place),
            ..self.tables.question(self.known.register)
        };
        let refusal = question.refusal(&Answer {
            number: answer.number,
            place: answer.place,
            size: 0,
            reg: answer.reg,
        });
        let report = Report::refused(&refusal, clip_fields("clip", answer));
        self.totals.add_refused(report.status);
        report
    }
}
