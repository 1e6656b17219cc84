//! `figures`: document 01's bench figures, as amended, and what refuses a quarter turn of each kind of
//! tables, worked out now, each beside the page's value.

use crate::ask;
use crate::call::Call;
use crate::fault::Fault;
use crate::files::{Entry, TableSet};
use crate::index::Subcarrier;
use crate::json::Json;
use crate::output::Output;
use crate::refusal::title;
use crate::report::{fields, Report};
use clevisroot_sys as library;
use clevisroot_sys::RESET;
use std::fmt::Display;

/// The exit status if a figure is not the page's.
const DISAGREE: u8 = 35;

struct Figure {
    /// Of the page's small set, which is also proved of the definitions.
    marked: bool,
    what: String,
    page: &'static str,
    now: String,
}

pub fn figures(call: &Call) -> Result<u8, Fault> {
    Output::open(call)?.single(figures_report())
}

fn figures_report() -> Report {
    let mut figures = table_a_figures();
    figures.extend(small_table_figures());
    figures.extend(point_figures());
    figures.extend(large_table_figures());
    figures.extend(quarter_turn_figures());
    let agree = figures.iter().filter(|figure| figure.agrees()).count();
    let status = if agree == figures.len() { 0 } else { DISAGREE };
    let mut summary = vec![row("agree", "", "figure (* the small set)", "page", "now")];
    summary.extend(figures.iter().map(Figure::line));
    summary.push(format!("{agree} of {} figures agree", figures.len()));
    let mut json = fields("figures", [None; 4]);
    json.push(("agree", Json::Flag(status == 0)));
    let list = figures.iter().map(Figure::json).collect();
    json.push(("figures", Json::List(list)));
    Report::new(status, summary, json)
}

impl Figure {
    fn agrees(&self) -> bool {
        self.page == self.now
    }

    fn line(&self) -> String {
        let agree = if self.agrees() { "yes" } else { "NO" };
        let mark = if self.marked { "*" } else { "" };
        row(agree, mark, &self.what, self.page, &self.now)
    }

    fn json(&self) -> Json {
        Json::Object(vec![
            ("figure", Json::text(self.what.clone())),
            ("marked", Json::Flag(self.marked)),
            ("page", Json::text(self.page)),
            ("now", Json::text(self.now.clone())),
            ("agree", Json::Flag(self.agrees())),
        ])
    }
}

fn row(agree: &str, mark: &str, what: &str, page: &str, now: &str) -> String {
    format!("{agree:<6}{mark:<2}{what:<35}{page:<29}{now}")
}

fn marked(what: &str, page: &'static str, now: String) -> Figure {
    Figure {
        marked: true,
        what: what.to_string(),
        page,
        now,
    }
}

fn unmarked(what: &str, page: &'static str, now: String) -> Figure {
    Figure {
        marked: false,
        ..marked(what, page, now)
    }
}

/// Bench table A, with the gain of tone 4 as given.
fn table_a(gain_of_4: u16) -> TableSet {
    table_a_with(1, gain_of_4)
}

/// The same, with so many bits of tones 3 and 6.
fn table_a_with(ones: u8, gain_of_4: u16) -> TableSet {
    let tones = [(7, 4), (3, ones), (5, 2), (2, 3), (6, ones), (4, 0)];
    let mut set = TableSet::new(true, 8);
    for (tone, bits) in tones {
        let gain = if tone == 4 { gain_of_4 } else { 512 };
        push(&mut set, tone, bits, gain);
    }
    set
}

fn equal_tones(coded: bool, tones: u16, bits: u8) -> TableSet {
    let mut set = TableSet::new(coded, usize::from(tones));
    for tone in 0..tones {
        push(&mut set, tone, bits, 512);
    }
    set
}

fn push(set: &mut TableSet, tone: u16, bits: u8, gain: u16) {
    set.push_tone(&Entry {
        line: 0,
        tone: Subcarrier(tone),
        bits,
        gain,
    });
}

fn table_a_figures() -> Vec<Figure> {
    let (a, silent) = (table_a(512), table_a(0));
    let (_, order) = ask::order(&a);
    vec![
        marked("A: t'", "7 5 2 4 3 6", words(&order.tones)),
        marked("A: b'", "0 0 4 2 3 2", words(&order.bits)),
        marked("A: L", "5", size(&a)),
        marked(
            "A, frame byte 0: points",
            "1,1 1,1 1,1 -1,-1 1,1 1,1",
            points(&a, 0),
        ),
        marked("A, frame byte 0: register", "2097151", register(&a, 0)),
        marked(
            "A, frame byte 1: points",
            "3,3 -1,-1 1,1 -1,-1 1,1 1,1",
            points(&a, 1),
        ),
        marked(
            "A, gain of 4 is 0, all -1,-1",
            "frame byte 15",
            turned(&silent),
        ),
        marked(
            "A, gain of 4 is 0: register",
            "2097151",
            register(&silent, 0),
        ),
        unmarked("A, frame byte 32", "11 FRAME", points(&a, 32)),
    ]
}

fn small_table_figures() -> Vec<Figure> {
    let twos = |tones| equal_tones(true, tones, 2);
    let one = |coded| equal_tones(coded, 1, 1);
    vec![
        marked("5 tones of 2 bits, coded: L", "3", size(&twos(5))),
        marked(
            "the same, frame byte 1: points",
            "-1,-1 -1,1 -1,1 -1,1 -1,1",
            points(&twos(5), 1),
        ),
        unmarked("3 tones of 2 bits, coded", "8 FEW", size(&twos(3))),
        unmarked("4 tones of 2 bits, coded: L", "2", size(&twos(4))),
        unmarked("1 tone of 1 bit, coded", "7 ODD", size(&one(true))),
        unmarked("1 tone of 1 bit, uncoded: L", "1", size(&one(false))),
    ]
}

fn point_figures() -> Vec<Figure> {
    const PAGE: [(u8, u32, &str); 7] = [
        (4, 9, "-3,3"),
        (5, 16, "5,1"),
        (5, 24, "-3,5"),
        (5, 31, "-5,-1"),
        (7, 64, "9,1"),
        (7, 67, "11,3"),
        (15, 17_407, "191,63"),
    ];
    let figure = |(bits, label, page)| {
        let point = library::map_label(bits, label);
        let now = answer_or(point.number, format!("{},{}", point.x, point.y));
        marked(&format!("{bits} bits, label {label}"), page, now)
    };
    PAGE.map(figure).into()
}

fn large_table_figures() -> Vec<Figure> {
    let large = |coded| size(&equal_tones(coded, 4096, 15));
    vec![
        unmarked("4096 tones of 15 bits, coded: L", "59388", large(true)),
        unmarked("4096 tones of 15 bits, uncoded: L", "61440", large(false)),
    ]
}

/// A table of each kind: by it goes what refuses a quarter turn, and where.
fn quarter_turn_figures() -> Vec<Figure> {
    let twos = |tones| quarter_turns(&equal_tones(true, tones, 2));
    let a = |ones| quarter_turns(&table_a_with(ones, 512));
    vec![
        unmarked("A, quarter turn", "13 OFFGRID at 4", a(1)),
        unmarked("A, 2 bits on 3 and 6: the same", "14 MONITOR at 5", a(2)),
        unmarked("5 tones of 2 bits: the same", "15 TRELLIS at 0", twos(5)),
        unmarked("4 tones of 2 bits: the same", "15 TRELLIS at 0", twos(4)),
        unmarked("6 tones of 2 bits: the same", "15 TRELLIS at 1", twos(6)),
    ]
}

/// What frame byte 0 is read as, turned by a quarter to the left and to the right.
fn quarter_turns(set: &TableSet) -> String {
    let (_, points) = ask::encode(set, &[0], 0, RESET);
    let opposite = |list: &[i16]| list.iter().map(|number| -number).collect::<Vec<_>>();
    let read = |x: &[i16], y: &[i16]| {
        let (answer, _) = ask::read(set, (x, y), RESET, 0);
        format!("{} at {}", title(answer.number), answer.place)
    };
    let left = read(&opposite(&points.y), &points.x);
    let right = read(&points.y, &opposite(&points.x));
    match left == right {
        true => left,
        false => format!("left {left}, right {right}"),
    }
}

fn size(set: &TableSet) -> String {
    let answer = library::check(set.lent());
    answer_or(answer.number, answer.size.to_string())
}

fn points(set: &TableSet, byte: u8) -> String {
    let (answer, points) = ask::encode(set, &[byte], 0, RESET);
    let pairs = points.x.iter().zip(&points.y);
    let words: Vec<String> = pairs.map(|(x, y)| format!("{x},{y}")).collect();
    answer_or(answer.number, words.join(" "))
}

fn register(set: &TableSet, byte: u8) -> String {
    let (answer, _) = ask::encode(set, &[byte], 0, RESET);
    answer_or(answer.number, answer.reg.to_string())
}

/// All loaded points (-1, -1), tone 4, which is silent, (0, 0).
fn turned(set: &TableSet) -> String {
    let list = [-1, -1, -1, 0, -1, -1];
    let (answer, frame) = ask::read(set, (&list, &list), RESET, 0);
    answer_or(answer.number, format!("frame byte {}", words(&frame)))
}

/// The refusal if there is one, else the figure.
fn answer_or(number: u32, figure: String) -> String {
    match number {
        0 => figure,
        _ => title(number),
    }
}

fn words<T: Display>(numbers: &[T]) -> String {
    let list: Vec<String> = numbers.iter().map(T::to_string).collect();
    list.join(" ")
}
