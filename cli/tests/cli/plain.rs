//! `--plain`: one tone by the plain mapper, beside the same call without it.

use crate::json::{object, parsed, text, Value};
use crate::refusals::refused;
use crate::run::{run, Ran};

const A: &str = "examples/bench-a.txt";
const PLACE: &str = "at place 0: the one tone asked for, by the plain mapper";

/// A call, and the same with `--plain`: same status, and nothing but the mapper is told besides, as text
/// and as JSON. Gives the JSON of the first.
fn both(words: &[&str]) -> Ran {
    let (tuned, plain) = (run(words), run(&[words, &["--plain"]].concat()));
    let told = ", by the plain mapper\n";
    assert_eq!(plain.out.matches(told).count(), 1, "{}", plain.out);
    same(&tuned, &plain, &plain.out.replace(told, "\n"));
    let json = [words, &["--json"]].concat();
    let (tuned, plain) = (run(&json), run(&[&json[..], &["--plain"]].concat()));
    let field = "  \"mapper\": \"plain\",\n";
    assert_eq!(plain.out.matches(field).count(), 1, "{}", plain.out);
    same(&tuned, &plain, &plain.out.replace(field, ""));
    tuned
}

/// The two calls ended alike, and what is left of the plain one's text is the other's.
fn same(tuned: &Ran, plain: &Ran, left: &str) {
    assert_eq!((plain.status, left), (tuned.status, tuned.out.as_str()));
    assert_eq!((plain.err.as_str(), tuned.err.as_str()), ("", ""));
    assert!(!tuned.out.contains("mapper"), "{}", tuned.out);
}

/// The label becomes a point, and that one the label, by either mapper.
fn there_and_back(bits: u32, label: u32) {
    let (bits, typed) = (bits.to_string(), label.to_string());
    let map = both(&["map", &bits, &typed]);
    assert_eq!(map.status, 0, "{}", map.out);
    let map = parsed(&map);
    let [x, y] = ["x", "y"].map(|key| match map[key] {
        Value::Number(number) => number.to_string(),
        _ => panic!("no number: {map:?}"),
    });
    let point = both(&["point", &bits, &x, &y]);
    assert_eq!(point.status, 0, "{}", point.out);
    assert_eq!(parsed(&point)["label"], Value::Number(label.into()));
}

/// The label has ones and zeros in turn: 1, 10, 101, 1010.
#[test]
fn every_bit_count() {
    for bits in 1..=15 {
        there_and_back(bits, (1 << (bits + 1)) / 3);
    }
}

#[test]
fn every_label_where_the_recursion_ends() {
    for bits in [1, 2, 3, 5] {
        for label in 0..1 << bits {
            there_and_back(bits, label);
        }
    }
}

#[test]
fn the_text_says_whose_answer_it_is() {
    let ran = run(&["map", "4", "9", "--plain"]);
    let words = "0 DONE: 4 bits, label 9 (1001): point (-3, 3), by the plain mapper\n";
    assert_eq!((ran.status, ran.out.as_str()), (0, words));
    for words in [
        ["point", "4", "-3", "3", "--plain"],
        ["point", "--plain", "4", "-3", "3"],
        ["--plain", "point", "4", "-3", "3"],
    ] {
        let ran = run(&words);
        let words = "0 DONE: 4 bits, point (-3, 3): label 9 (1001), by the plain mapper\n";
        assert_eq!((ran.status, ran.out.as_str()), (0, words));
    }
}

#[test]
fn json_says_whose_answer_it_is() {
    for words in [
        &["map", "4", "9"][..],
        &["point", "4", "-3", "3"],
        &["map", "4", "16"],
        &["point", "4", "2", "2"],
    ] {
        let plain = object(&run(&[words, &["--plain", "--json"]].concat()));
        assert_eq!(plain["mapper"], text("plain"));
        let tuned = object(&run(&[words, &["--json"]].concat()));
        assert!(!tuned.contains_key("mapper"), "{words:?}");
    }
}

#[test]
fn refusals() {
    for bits in ["0", "16", "256", "99999999999999999999"] {
        for words in [&["map", bits, "0"][..], &["point", bits, "1", "1"]] {
            assert_eq!(both(words).status, 16, "{words:?}");
        }
    }
    for (bits, label) in [
        ("1", "2"),
        ("4", "16"),
        ("15", "32768"),
        ("4", "4294967296"),
    ] {
        assert_eq!(both(&["map", bits, label]).status, 16, "{bits} {label}");
    }
    let off = [
        ["1", "1", "-1"],
        ["2", "3", "1"],
        ["3", "-3", "3"],
        ["4", "2", "2"],
        ["4", "5", "1"],
        ["5", "5", "5"],
        ["7", "-11", "-11"],
        ["15", "0", "0"],
        ["15", "-32768", "32767"],
        ["4", "99999", "1"],
    ];
    for [bits, x, y] in off {
        let status = both(&["point", bits, x, y]).status;
        assert_eq!(status, 13, "{bits} {x} {y}");
    }
}

#[test]
fn a_refusal_says_whose_it_is() {
    let ran = run(&["map", "4", "16", "--plain"]);
    refused(&ran, 16, "LABEL", PLACE, "A label of 4 bits is 0 to 15.");
    let ran = run(&["map", "16", "0", "--plain"]);
    refused(&ran, 16, "LABEL", PLACE, "1 to 15 bits");
    let ran = run(&["point", "0", "2", "2", "--plain"]);
    refused(&ran, 16, "LABEL", PLACE, "1 to 15 bits");
    let ran = run(&["point", "4", "2", "2", "--plain"]);
    let sentence = "(2, 2) is none of the 16 points of a tone with 4 bits.";
    refused(&ran, 13, "OFFGRID", PLACE, sentence);
}

#[test]
fn other_commands_have_no_plain_mapper() {
    for words in [
        &["check", A][..],
        &["order", A],
        &["encode", A, "examples/bench-a.hex"],
        &["read", A, "examples/bench-a.csv"],
        &["nearest", A, "examples/bench-a.csv"],
        &["turn", A, "examples/bench-a.csv"],
        &["clip", A, "examples/bench-a.csv"],
        &["report", "examples/pair-7.log"],
        &["figures"],
        &["man"],
        &["completions", "bash"],
    ] {
        let ran = run(&[words, &["--plain"]].concat());
        assert_eq!((ran.status, ran.out.as_str()), (64, ""), "{words:?}");
        assert!(ran.err.contains("no option --plain here"), "{}", ran.err);
    }
}
