//! What is said of a judged symbol, for a person and for a program.

use super::ground_fields::ground_fields;
use super::judge::Judged;
use super::quarter_words::quarter_sentence;
use super::reading::{Reading, Tables};
use super::verdict::Verdict;
use super::verdict_theorems::theorems_of_readings;
use super::verdict_words::{
    cannot_tell_sentence, neither_sentence, perhaps_sentence, sure_sentence,
};
use crate::files::hex_lines;
use crate::json::{Fields, Json};
use crate::report::{fields, refusal_fields, start_field, Report};
use crate::way::{Family, Way};

impl Judged {
    pub fn report(&self, tables: &Tables) -> Report {
        let verdict = self.verdict();
        let sentence = self.sentence(tables);
        let theorems = theorems_of_readings(verdict, &self.ground, tables.set.coded);
        let ground = ground_fields(verdict, &self.ground, tables.set.coded, &theorems);
        let mut json = self.fields(tables, self.readings.straight());
        json.retain(|(key, _)| *key != "sentence");
        json.extend([
            ("verdict", Json::text(verdict.word())),
            ("sure", Json::Flag(verdict.is_sure())),
            ("rests_on", Json::Object(ground)),
            ("sentence", Json::text(sentence.clone())),
        ]);
        for (way, reading) in self.readings.iter().skip(1) {
            json.push((key(way), Json::Object(self.fields(tables, reading))));
        }
        let mut summary = vec![sentence];
        summary.extend(self.lines(tables));
        let mut report = Report::new(verdict.status(), summary, json);
        report.refused = verdict == Verdict::Neither;
        report
    }

    /// What the jointer should be told, in one sentence.
    fn sentence(&self, tables: &Tables) -> String {
        let ground = &self.ground;
        match self.verdict() {
            Verdict::Sure(way) => sure_sentence(way, tables, ground),
            Verdict::Quarter => quarter_sentence(self.seen, tables, ground),
            Verdict::Perhaps(way) => perhaps_sentence(way, tables, ground),
            Verdict::CannotTell => cannot_tell_sentence(tables, ground),
            Verdict::Neither => neither_sentence(tables, ground),
        }
    }

    /// A line for each way that is of interest: where no quarter turn is told, the two without one.
    fn lines(&self, tables: &Tables) -> Vec<String> {
        let two = self.family == Some(Family::Halves) && self.verdict() != Verdict::Neither;
        let shown = |way: Way| !two || way.family() == Family::Halves;
        let ways: Vec<_> = self
            .readings
            .iter()
            .filter(|(way, _)| shown(*way))
            .collect();
        let width = ways.iter().map(|(way, _)| label(*way).len()).max();
        let width = width.unwrap_or(0);
        let line = |(way, reading): &(Way, &Reading)| {
            format!("{:<width$} {}", label(*way), self.words(tables, reading))
        };
        ways.iter().map(line).collect()
    }

    /// One of the readings in fields.
    fn fields(&self, tables: &Tables, reading: &Reading) -> Fields {
        let answer = &reading.answer;
        let register = self.known.map(|_| answer.reg);
        let numbers = [answer.number, answer.place, answer.size].map(Some);
        let mut json = fields("turn", [numbers[0], numbers[1], numbers[2], register]);
        json.extend(start_field(tables.named_start));
        if let Some(refusal) = &reading.refusal {
            json.extend(refusal_fields(refusal));
        }
        let frame = match reading.is_done() {
            true => Json::text(hex_lines(&reading.frame).replace('\n', "")),
            false => Json::Null,
        };
        json.push(("frame", frame));
        json
    }

    /// One of the readings in words.
    fn words(&self, tables: &Tables, reading: &Reading) -> String {
        if let Some(refusal) = &reading.refusal {
            return format!("refused, {} {}", refusal.title(), refusal.place);
        }
        // A long frame is for --json.
        let frame = match reading.frame.len() {
            1..=16 => format!("frame {} (hex), ", hex_lines(&reading.frame).trim_end()),
            _ => String::new(),
        };
        let size = tables.span(&reading.answer).words();
        match self.known {
            Some(_) => format!("read, {frame}{size}, register after {}", reading.answer.reg),
            None => format!("read, {frame}{size}, register not known"),
        }
    }
}

/// What a line is of: the points, taken as having come so.
fn label(way: Way) -> &'static str {
    match way {
        Way::Straight => "as they came:",
        Way::Turned => "turned:",
        Way::QuarterLeft => "quarter left:",
        Way::QuarterRight => "quarter right:",
    }
}

fn key(way: Way) -> &'static str {
    match way {
        Way::Straight => "straight",
        Way::Turned => "turned",
        Way::QuarterLeft => "quarter_left",
        Way::QuarterRight => "quarter_right",
    }
}
