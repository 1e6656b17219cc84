//! The totals of a stream of `encode` or `read`.

use crate::json::Json;
use crate::refusal::title;
use crate::report::Report;
use crate::words::count;
use clevisroot_sys::refusals::{name, DONE};
use std::collections::BTreeMap;

#[derive(Default)]
pub struct Totals {
    symbols: usize,
    /// How often each number was answered.
    numbers: BTreeMap<u32, usize>,
    /// Symbols whose register was not found.
    open: usize,
    /// The first symbol that was not done, and its exit status.
    first: Option<(usize, u8)>,
    register: Option<u32>,
}

impl Totals {
    /// Counts the answer of one symbol: its number, none if its register was not found.
    pub fn add(&mut self, symbol: usize, number: Option<u32>, status: u8, register: Option<u32>) {
        self.symbols += 1;
        match number {
            Some(number) => *self.numbers.entry(number).or_default() += 1,
            None => self.open += 1,
        }
        if status > 0 && self.first.is_none() {
            self.first = Some((symbol, status));
        }
        self.register = register;
    }

    pub fn report(&self) -> Report {
        let done = self.numbers.get(&DONE).copied().unwrap_or(0);
        let refused = self.symbols - done - self.open;
        let number = |number: usize| Json::Number(number as i64);
        let refusals = self.numbers.iter().filter(|(number, _)| **number != DONE);
        let list = refusals.clone().map(|(&refusal, &times)| {
            Json::Object(vec![
                ("number", Json::Number(refusal.into())),
                ("name", Json::text(name(refusal))),
                ("symbols", number(times)),
            ])
        });
        let fields = vec![
            ("symbols", number(self.symbols)),
            ("done", number(done)),
            ("refused", number(refused)),
            ("register_not_found", number(self.open)),
            (
                "first_not_done",
                self.first.map_or(Json::Null, |(symbol, _)| number(symbol)),
            ),
            ("refusals", Json::List(list.collect())),
            (
                "register",
                self.register
                    .map_or(Json::Null, |register| Json::Number(register.into())),
            ),
        ];
        let status = self.first.map_or(0, |(_, status)| status);
        Report::new(status, vec![self.words(done, refused)], fields)
    }

    /// "3 symbols: 2 done, 1 refused (14 MONITOR 1, first symbol 1), register after 2097151"
    fn words(&self, done: usize, refused: usize) -> String {
        let mut words = format!(
            "{}: {done} done, {refused} refused",
            count(self.symbols, "symbol")
        );
        let refusals = self.numbers.iter().filter(|(number, _)| **number != DONE);
        let mut list: Vec<String> = refusals
            .map(|(&number, times)| format!("{} {times}", title(number)))
            .collect();
        if let Some((first, _)) = self.first {
            list.push(format!("first symbol {first}"));
        }
        if !list.is_empty() {
            words.push_str(&format!(" ({})", list.join(", ")));
        }
        if self.open > 0 {
            words.push_str(&format!(", {} without a register", self.open));
        }
        match self.register {
            Some(register) => words + &format!(", register after {register}"),
            None => words + ", register after not known",
        }
    }
}
