//! The totals of a stream of `nearest`: how far each tone is off over all symbols.

use super::decision::{Decision, Loaded};
use super::distance_words::{table, whole, Row};
use super::totals::Totals;
use crate::index::{Place, Subcarrier};
use crate::json::Json;
use crate::report::Report;
use crate::words::count;
use clevisroot_sys::refusals::DONE;

#[derive(Default)]
pub struct DistanceTotals {
    answers: Totals,
    /// Symbols that were read.
    read: usize,
    total: u64,
    /// The loaded tones in t' order, once a symbol was read.
    tones: Vec<Summed>,
}

/// A tone with its squared distances over all symbols.
struct Summed {
    place: Place,
    tone: Subcarrier,
    bits: u8,
    sum: u64,
    largest: u64,
}

impl DistanceTotals {
    /// Counts the decision on one symbol.
    pub fn add(&mut self, number: usize, decision: &Decision, status: u8) {
        let Decision { answer, loaded, .. } = decision;
        let register = Some(answer.reg);
        self.answers
            .add(number, Some(answer.number), status, register);
        if answer.number != DONE {
            return;
        }
        if self.read == 0 {
            self.tones = loaded.iter().map(Summed::new).collect();
        }
        self.read += 1;
        self.total = self.total.saturating_add(decision.total);
        for (summed, tone) in self.tones.iter_mut().zip(loaded) {
            summed.add(tone.squared_distance());
        }
    }

    pub fn report(&self, all: bool) -> Report {
        let mut report = self.answers.report();
        report.json.push(("total", whole(self.total)));
        let list = self.tones.iter().map(Summed::json).collect();
        report.json.push(("loaded", Json::List(list)));
        if self.read > 0 {
            let symbols = count(self.read, "symbol");
            let total = format!("total {} over {symbols}", self.total);
            report.summary.extend(table(&total, &self.tones, all));
        }
        report
    }
}

impl Summed {
    /// Nothing is added yet.
    fn new(tone: &Loaded) -> Summed {
        Summed {
            place: tone.place,
            tone: tone.tone,
            bits: tone.bits,
            sum: 0,
            largest: 0,
        }
    }

    fn add(&mut self, squared_distance: u64) {
        self.sum = self.sum.saturating_add(squared_distance);
        self.largest = self.largest.max(squared_distance);
    }

    fn json(&self) -> Json {
        Json::Object(vec![
            ("place", Json::Number(self.place.0 as i64)),
            ("sub_carrier", Json::Number(self.tone.0.into())),
            ("bits", Json::Number(self.bits.into())),
            ("sum_of_squared_distances", whole(self.sum)),
            ("largest_squared_distance", whole(self.largest)),
        ])
    }
}

impl Row for Summed {
    const HEADER: &'static str =
        "sub-carrier  bits  place in t'  sum of squared distances  largest";

    fn off(&self) -> u64 {
        self.sum
    }

    fn words(&self) -> String {
        format!(
            "{:>11}  {:>4}  {:>11}  {:>24}  {:>7}",
            self.tone.0, self.bits, self.place.0, self.sum, self.largest
        )
    }
}
