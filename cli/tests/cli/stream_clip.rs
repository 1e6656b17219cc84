//! `clip` on a stream: the register goes on by the draws of each symbol, whatever the answer, and no
//! verdict is surer than what it rests on.

use crate::json::{inner, list, object, text, Value};
use crate::run::{example, run, run_with, symbols_of, turned, verdicts, Ran};
use std::collections::BTreeMap;

const SET: &str = "examples/clip.txt";

/// The condition of the totals.
const IF: &str =
    "if the tables and the register that were given are the writer's and the points that were looked at came \
                  as they were written but for a turn";

/// Symbols of the example that follow each other from register 4711 on.
fn symbols(count: usize) -> Vec<String> {
    let frames: Vec<String> = (0..count)
        .map(|number| format!("{:02x}", number * 11 % 32))
        .collect();
    symbols_of(SET, &frames, "4711")
}

fn clip(symbols: &[String], words: &[&str]) -> Ran {
    let text = symbols.join("\n");
    run_with(text.as_bytes(), &[&["clip", SET, "-"], words].concat())
}

fn given(symbols: &[String]) -> Ran {
    clip(symbols, &["--register", "4711"])
}

fn last(ran: &Ran) -> &str {
    ran.out.lines().last().unwrap()
}

/// A symbol with another point at the first monitored tone, at place 3.
fn with_noise(symbol: &str) -> String {
    let mut lines: Vec<&str> = symbol.lines().collect();
    lines[3] = "5,5";
    lines.join("\n") + "\n"
}

#[test]
fn the_register_is_carried() {
    let straight = symbols(40);
    let wrong: Vec<String> = straight.iter().map(|symbol| turned(symbol)).collect();
    for (symbols, word, status) in [(&straight, "Straight", 0), (&wrong, "Turned", 32)] {
        let ran = given(symbols);
        assert_eq!(verdicts(&ran), vec![word; 40]);
        assert_eq!((ran.status, ran.err.as_str()), (status, ""));
        let word = word.to_lowercase();
        let totals = format!("40 symbols: 40 {word}; in all: {word}, {IF}");
        assert_eq!(last(&ran), totals);
        let words =
            ", which follows from the one that was given, are the writer's and the one point that \
                     was looked at came as it was written but for a turn: ";
        assert_eq!(ran.out.matches(words).count(), 39);
    }
}

/// It is the register that `encode` tells for the next symbol.
#[test]
fn the_carried_register_is_the_writer_s() {
    let words = ["--register", "4711", "--json"];
    let told = object(&clip(&symbols(8), &words));
    let frames = (0..8).map(|number| format!("{:02x}\n\n", number * 11 % 32));
    let frames: String = frames.collect();
    let words = ["encode", SET, "-", "--register", "4711", "--json"];
    let written = object(&run_with(frames.as_bytes(), &words));
    let registers = |object: &Value| {
        let symbols = list(object).into_iter();
        symbols
            .map(|symbol| symbol["register"].clone())
            .collect::<Vec<Value>>()
    };
    let (before, after) = (registers(&told["symbols"]), registers(&written["symbols"]));
    assert_eq!(before[0], Value::Number(4711));
    assert_eq!(before[1..], after[..7]);
}

#[test]
fn a_symbol_that_is_neither_does_not_stop_the_draws() {
    let straight = symbols(12);
    let wrong: Vec<String> = straight.iter().map(|symbol| turned(symbol)).collect();
    for (symbols, word) in [(straight, "straight"), (wrong, "turned")] {
        let mut symbols = symbols;
        symbols[5] = with_noise(&symbols[5]);
        let ran = given(&symbols);
        let sure = if word == "straight" {
            "Straight"
        } else {
            "Turned"
        };
        let perhaps = format!("Perhaps {word}");
        let expected = [vec![sure; 5], vec!["Neither"], vec![&perhaps; 6]].concat();
        assert_eq!(verdicts(&ran), expected);
        assert_eq!(ran.status, 36);
        let totals =
            format!("12 symbols: 5 {word}, 6 perhaps {word}, 1 neither; in all: perhaps {word}");
        assert_eq!(last(&ran), totals);
        let words = "which goes on past a symbol that was refused or neither way round and so may \
                     be out of step, and about one wrong register in 4 would look the same; the \
                     writer's register before this symbol (--register N, with this symbol first) \
                     would settle it";
        assert_eq!(ran.out.matches(words).count(), 6, "{}", ran.out);
    }
}

/// Two symbols without a line between them count as one, so that those after them are out of step: what
/// they say by chance is not sure, and not the verdict on all of them on the given register's condition.
#[test]
fn after_a_symbol_of_the_wrong_length_nothing_is_sure() {
    let mut deceived = 0;
    for register in (1..=40).map(|number| (number * 209_701).to_string()) {
        let frames = vec!["0b".to_string(); 3];
        let symbols = symbols_of(SET, &frames, &register);
        let joined = [symbols[0].clone() + &symbols[1], symbols[2].clone()];
        let ran = clip(&joined, &["--register", &register]);
        let told = verdicts(&ran);
        assert_eq!(told[0], "refused");
        assert!(ran.out.contains("There are 16 points for 8 tones"));
        assert!(told[1] == "Neither" || told[1].starts_with("Perhaps "));
        let writer_s =
            "the writer's register before this symbol (--register N, with this symbol first)";
        assert_eq!(ran.out.matches(writer_s).count(), 1, "{}", ran.out);
        assert!(matches!(ran.status, 34 | 36), "{}", ran.out);
        deceived += usize::from(told[1] == "Perhaps turned");
    }
    assert!(deceived > 3, "{deceived}");
}

/// One symbol that is too short: the draws go on, and those after it are told the right way.
#[test]
fn a_refused_symbol_does_not_stop_the_draws() {
    let mut symbols = symbols(12);
    symbols[5] = symbols[5].lines().skip(1).collect::<Vec<_>>().join("\n") + "\n";
    let ran = given(&symbols);
    let expected = [
        vec!["Straight"; 5],
        vec!["refused"],
        vec!["Perhaps straight"; 6],
    ]
    .concat();
    assert_eq!(verdicts(&ran), expected);
    let totals =
        format!("12 symbols: 5 straight, 6 perhaps straight, 1 refused; in all: straight, {IF}");
    assert_eq!((ran.status, last(&ran)), (0, totals.as_str()));
    let stopped = clip(&symbols, &["--register", "4711", "--stop"]);
    assert_eq!(verdicts(&stopped), expected[..6]);
    assert!(last(&stopped).starts_with("6 symbols: 5 straight, 1 refused; "));
}

/// Clips do not swap themselves.
#[test]
fn symbols_of_both_ways_cannot_tell() {
    let mut symbols = symbols(4);
    symbols[2] = turned(&symbols[2]);
    symbols[3] = turned(&symbols[3]);
    let ran = given(&symbols);
    let expected = ["Straight", "Straight", "Perhaps turned", "Perhaps turned"];
    assert_eq!(verdicts(&ran), expected);
    assert_eq!(ran.status, 33);
    assert!(last(&ran).ends_with("; in all: cannot tell"), "{}", ran.out);
    for words in [
        "which had a symbol before another way round and so may be out of step",
        "; the writer's register before this symbol (--register N, with this symbol first) would settle it",
    ] {
        assert_eq!(ran.out.matches(words).count(), 2, "{}", ran.out);
    }
}

/// `turn` goes on with the register that a noisy symbol handed back, `clip` with the draws of its own:
/// both say "perhaps", and may say different ways.
#[test]
fn after_noise_turn_may_say_another_way() {
    let mut others = 0;
    for register in (1..=40).map(|number| (number * 209_701).to_string()) {
        let frames = vec!["0b".to_string(); 3];
        let mut symbols = symbols_of(SET, &frames, &register);
        symbols[1] = with_noise(&symbols[1]);
        let words = ["--register", &register];
        assert_eq!(
            verdicts(&clip(&symbols, &words)),
            ["Straight", "Neither", "Perhaps straight"]
        );
        let words = ["turn", SET, "-", "--register", &register];
        let turn = verdicts(&run_with(symbols.join("\n").as_bytes(), &words));
        assert_eq!(turn[..2], ["Straight", "Neither"]);
        assert!(turn[2] == "Neither" || turn[2].starts_with("Perhaps "));
        others += usize::from(turn[2] == "Perhaps turned");
    }
    assert!(others > 0, "{others}");
}

#[test]
fn an_assumed_register_is_a_perhaps_for_all() {
    let path = "examples/bench-a-stream.csv";
    let ran = run(&["clip", "examples/bench-a.txt", path]);
    assert_eq!(verdicts(&ran), ["Perhaps straight"; 3]);
    let totals = "3 symbols: 3 perhaps straight; in all: perhaps straight";
    assert_eq!((ran.status, last(&ran)), (36, totals));
    let words =
        "follows from the value at reset, assumed because none was given, and about one wrong \
                 register in 4 would look the same; the writer's register (--register N) would";
    assert_eq!(ran.out.matches(words).count(), 2);
}

#[test]
fn all_of_a_kind() {
    let text = example("cannot-tell.csv");
    let words = ["clip", "examples/cannot-tell.txt", "-"];
    let ran = run_with(text.repeat(3).as_bytes(), &words);
    let totals = "3 symbols: 3 cannot tell; in all: cannot tell";
    assert_eq!((ran.status, last(&ran)), (33, totals));
    let ran = clip(&symbols(3), &["--register", "0"]);
    let totals = "3 symbols: 3 refused; in all: no verdict";
    assert_eq!((ran.status, last(&ran)), (12, totals));
    let noise: Vec<String> = symbols(3).iter().map(|symbol| with_noise(symbol)).collect();
    let ran = given(&noise);
    assert_eq!(
        (ran.status, last(&ran)),
        (34, "3 symbols: 3 neither; in all: neither")
    );
    // Neither is an answer, which --stop does not end at.
    assert_eq!(clip(&noise, &["--register=4711", "--stop"]).out, ran.out);
}

/// The verdicts of the totals, each with its count.
fn counts(totals: &BTreeMap<String, Value>) -> Vec<(String, Value)> {
    let all = inner(totals, "verdicts").into_iter();
    all.filter(|(_, count)| *count != Value::Number(0))
        .collect()
}

#[test]
fn json_of_a_stream() {
    let mut symbols = symbols(4);
    symbols[2] = with_noise(&symbols[2]);
    let json = object(&clip(&symbols, &["--register", "4711", "--json"]));
    assert_eq!(json["command"], text("clip"));
    let totals = inner(&json, "totals");
    assert_eq!(totals["verdict"], text("perhaps straight"));
    assert_eq!(totals["symbols"], Value::Number(4));
    assert_eq!(
        (&totals["refused"], &totals["holds_if"]),
        (&Value::Number(0), &Value::Null)
    );
    let expected = [("neither", 1), ("perhaps straight", 1), ("straight", 2)];
    let expected = expected.map(|(word, count)| (word.to_string(), Value::Number(count)));
    assert_eq!(counts(&totals), expected);
    let condition = "the tables and the register that were given are the writer's";
    let point = "the one point that was looked at came as it was written but for a turn";
    let drawn_on = "drawn on past a symbol that was refused or neither";
    let expected = [
        ("given", text(&format!("{condition} and {point}"))),
        (
            "given",
            text(&format!(
                "{condition}, no symbol is missing since, and {point}"
            )),
        ),
        ("none fits", Value::Null),
        (drawn_on, Value::Null),
    ];
    for (number, (register_is, holds_if)) in expected.into_iter().enumerate() {
        let symbol = &list(&json["symbols"])[number];
        assert_eq!(symbol["symbol"], Value::Number(number as i64));
        let ground = inner(symbol, "rests_on");
        assert_eq!(ground["register_is"], text(register_is));
        assert_eq!(ground["holds_if"], holds_if);
    }
}

#[test]
fn json_of_a_stream_on_a_condition() {
    let wrong: Vec<String> = symbols(3).iter().map(|symbol| turned(symbol)).collect();
    let ran = clip(&wrong, &["--register", "4711", "--json"]);
    let totals = inner(&object(&ran), "totals");
    assert_eq!((ran.status, &totals["verdict"]), (32, &text("turned")));
    assert_eq!(counts(&totals), [("turned".to_string(), Value::Number(3))]);
    let words = IF.strip_prefix("if ").unwrap();
    assert_eq!(totals["holds_if"], text(words));
}
