//! The totals of a stream of `turn` or `clip`: the clips are the same for all of its symbols.

use super::ground_fields::{IF_BOTH, IF_GIVEN, NO_QUARTER, POINTS};
use super::verdict::{Verdict, CANNOT_TELL};
use super::whole::Whole;
use crate::json::Json;
use crate::report::Report;
use crate::way::{Family, Way};
use crate::words::count;
use std::collections::BTreeMap;

const ALL: [Verdict; 11] = [
    Verdict::Sure(Way::Straight),
    Verdict::Sure(Way::Turned),
    Verdict::Sure(Way::QuarterLeft),
    Verdict::Sure(Way::QuarterRight),
    Verdict::Quarter,
    Verdict::Perhaps(Way::Straight),
    Verdict::Perhaps(Way::Turned),
    Verdict::Perhaps(Way::QuarterLeft),
    Verdict::Perhaps(Way::QuarterRight),
    Verdict::CannotTell,
    Verdict::Neither,
];

/// Why nothing is told of them together.
const BOTH: &str = ", for some symbols are turned by a quarter and some are not";

pub struct VerdictTotals {
    /// What has to be so where a verdict is on a condition.
    condition: String,
    /// What has to be so all the same where it is on none.
    always: Option<&'static str>,
    verdicts: BTreeMap<Verdict, usize>,
    whole: Whole,
    /// Symbols refused before a point was looked at.
    refused: usize,
    /// The exit status of the first of them.
    first: Option<u8>,
}

impl VerdictTotals {
    /// Of verdicts on whole symbols, which were read.
    pub fn of_readings(coded: bool) -> VerdictTotals {
        VerdictTotals {
            always: (!coded).then_some(NO_QUARTER),
            ..VerdictTotals::new(IF_GIVEN.to_string())
        }
    }

    /// Of verdicts on one tone of each symbol.
    pub fn of_one_tone() -> VerdictTotals {
        VerdictTotals::new(format!("{IF_BOTH} and {POINTS}"))
    }

    fn new(condition: String) -> VerdictTotals {
        VerdictTotals {
            condition,
            always: None,
            verdicts: BTreeMap::new(),
            whole: Whole::default(),
            refused: 0,
            first: None,
        }
    }

    /// Adds what the ways of a family say of a symbol; no family where that is not sure.
    pub fn add(&mut self, seen: Verdict, family: Option<Family>, conditional: bool) {
        let told = seen.of_family(family);
        *self.verdicts.entry(told).or_default() += 1;
        self.whole.add(seen, family, conditional);
    }

    pub fn add_refused(&mut self, status: u8) {
        self.refused += 1;
        self.first.get_or_insert(status);
    }

    fn of(&self, verdict: Verdict) -> usize {
        self.verdicts.get(&verdict).copied().unwrap_or(0)
    }

    /// What the verdict on all of them holds under, if every symbol that says so does.
    fn condition(&self, whole: Option<Verdict>) -> Option<&str> {
        match whole {
            Some(Verdict::Sure(way)) if self.whole.holds_always(way) => self.always,
            Some(Verdict::Sure(_)) => Some(&self.condition),
            _ => None,
        }
    }

    pub fn report(&self) -> Report {
        let symbols = self.verdicts.values().sum::<usize>() + self.refused;
        let whole = self.whole.verdict();
        let condition = self.condition(whole);
        let mut words: Vec<String> = Vec::new();
        let mut counts = Vec::new();
        for verdict in ALL {
            counts.push((verdict.word(), Json::Number(self.of(verdict) as i64)));
            if self.of(verdict) > 0 {
                words.push(format!("{} {}", self.of(verdict), verdict.word()));
            }
        }
        if self.refused > 0 {
            words.push(format!("{} refused", self.refused));
        }
        let word = whole.map_or("no verdict", Verdict::word);
        let summary = format!(
            "{}: {}; in all: {word}{}",
            count(symbols, "symbol"),
            words.join(", "),
            match condition {
                Some(condition) => format!(", if {condition}"),
                None if self.whole.is_of_both_families() => BOTH.to_string(),
                None => String::new(),
            }
        );
        let status = whole.map_or(self.first.unwrap_or(CANNOT_TELL), Verdict::status);
        let fields = vec![
            ("symbols", Json::Number(symbols as i64)),
            ("verdicts", Json::Object(counts)),
            ("refused", Json::Number(self.refused as i64)),
            (
                "verdict",
                whole.map_or(Json::Null, |whole| Json::text(whole.word())),
            ),
            ("holds_if", condition.map_or(Json::Null, Json::text)),
        ];
        Report::new(status, vec![summary], fields)
    }
}
