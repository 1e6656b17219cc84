//! `--json` of every command.

use crate::json::{answer, head, numbers, object, text, Value};
use crate::run::{file, run, run_with, tables};
use std::collections::BTreeMap;

const A: &str = "examples/bench-a.txt";

#[test]
fn what_is_done() {
    let check = object(&run(&["check", A, "--json"]));
    assert_eq!(head(&check), answer(0, "DONE", 0, 5, Value::Null));
    assert_eq!(
        ["turned_shows", "turned_shows_without_register"].map(|key| check[key].clone()),
        [Value::Flag(true), Value::Flag(false)]
    );
    assert_eq!(check["mode"], text("coded"));
    assert_eq!(
        [
            "sub_carriers",
            "tones",
            "data",
            "monitored",
            "silent",
            "non_zero_entries"
        ]
        .map(|key| check[key].clone()),
        [8, 6, 5, 1, 0, 4].map(Value::Number)
    );
    let by_bits = [2, 1, 1, 1, 0, 0, 0, 0, 0, 0, 0, 0, 0, 0, 0];
    assert_eq!(check["tones_by_bits"], numbers(&by_bits));
    let order = object(&run(&["order", A, "--json"]));
    assert_eq!(head(&order), answer(0, "DONE", 0, 5, Value::Null));
    assert_eq!(order["tones"], numbers(&[7, 5, 2, 4, 3, 6]));
    assert_eq!(order["bits"], numbers(&[0, 0, 4, 2, 3, 2]));
    let after = Value::Number(2_097_151);
    let encode = object(&run(&["encode", A, "examples/bench-a.hex", "--json"]));
    assert_eq!(head(&encode), answer(0, "DONE", 0, 5, after.clone()));
    assert_eq!(encode["tones"], numbers(&[7, 5, 2, 4, 3, 6]));
    assert_eq!(encode["x"], numbers(&[-1, -1, -3, -1, 1, 1]));
    assert_eq!(encode["y"], numbers(&[3, -1, 1, -1, 1, 1]));
    let read = object(&run(&["read", A, "examples/bench-a.csv", "--json"]));
    assert_eq!(head(&read), answer(0, "DONE", 0, 5, after));
    assert_eq!(read["frame"], text("15"));
}

#[test]
fn one_tone_and_figures() {
    let map = object(&run(&["map", "4", "9", "--json"]));
    assert_eq!(
        [&map["number"], &map["x"]],
        [&Value::Number(0), &Value::Number(-3)]
    );
    assert_eq!([&map["size"], &map["register"]], [&Value::Null; 2]);
    has(
        &map,
        &[("bits", Value::Number(4)), ("label", Value::Number(9))],
    );
    let point = object(&run(&["point", "4", "-3", "3", "--json"]));
    assert_eq!(point["label"], Value::Number(9));
    has(&point, &[("x", Value::Number(-3)), ("y", Value::Number(3))]);
    let label = object(&run(&["map", "4", "16", "--json"]));
    assert_eq!(
        [&label["number"], &label["name"]],
        [&Value::Number(16), &text("LABEL")]
    );
    let figures = object(&run(&["figures", "--json"]));
    assert_eq!(figures["agree"], Value::Flag(true));
    assert!(matches!(&figures["figures"], Value::List(list) if list.len() == 29));
}

#[test]
fn what_is_refused() {
    let points = b"1,1\n1,1\n1,1\n1,1\n1,1\n1,1";
    let read = object(&run_with(points, &["read", A, "-", "--json"]));
    assert_eq!(
        head(&read),
        answer(14, "MONITOR", 3, 0, Value::Number(8_388_607))
    );
    assert_eq!(read["place_is"], text("place in t'"));
    assert!(!read.contains_key("frame"));
    assert_eq!(
        ["sub_carrier", "file", "line", "pair_sub_carriers"].map(|key| read[key].clone()),
        [
            Value::Number(4),
            text("standard input"),
            Value::Number(4),
            Value::Null
        ]
    );
    let broken = b"1,1\n1,1\n1,1\n-1,-1\n1,1\n-1,-1";
    let read = object(&run_with(broken, &["read", A, "-", "--json"]));
    assert_eq!(read["place_is"], text("pair"));
    assert_eq!(read["pair_sub_carriers"], numbers(&[2, 3, 6]));
    assert_eq!(read["sub_carrier"], Value::Null);
    let set = tables("json-gain.txt", "coded", 9, &[(7, 2, 0), (8, 2, 1)]);
    let check = object(&run(&["check", &set, "--json"]));
    assert_eq!(
        [&check["sub_carrier"], &check["line"], &check["file"]],
        [&Value::Number(7), &Value::Number(3), &text(&set)]
    );
    let set = tables("json-few.txt", "coded", 9, &[(8, 2, 1)]);
    let check = object(&run(&["check", &set, "--json"]));
    assert_eq!(head(&check), answer(8, "FEW", 0, 0, Value::Null));
    assert_eq!(check["place_is"], Value::Null);
}

/// An object inside an object.
fn inner(object: &BTreeMap<String, Value>, key: &str) -> BTreeMap<String, Value> {
    match &object[key] {
        Value::Object(inner) => inner.clone(),
        other => panic!("no object: {other:?}"),
    }
}

/// These fields are these values.
fn has(object: &BTreeMap<String, Value>, fields: &[(&str, Value)]) {
    for (key, value) in fields {
        assert_eq!(&object[*key], value, "{key}");
    }
}

#[test]
fn both_readings_of_turn() {
    let turn = object(&run(&["turn", A, "examples/bench-a-turned.csv", "--json"]));
    let reset = Value::Number(8_388_607);
    assert_eq!(head(&turn), answer(14, "MONITOR", 3, 0, reset));
    let refused = [
        ("verdict", text("perhaps turned")),
        ("frame", Value::Null),
        ("sure", Value::Flag(false)),
        ("place_is", text("place in t'")),
        ("sub_carrier", Value::Number(4)),
        ("line", Value::Number(6)),
    ];
    has(&turn, &refused);
    let turned = inner(&turn, "turned");
    let after = Value::Number(2_097_151);
    assert_eq!(head(&turned), answer(0, "DONE", 0, 5, after));
    assert_eq!(turned["frame"], text("15"));
    // The refusal inside, when it is the turned one.
    let turn = object(&run(&["turn", A, "examples/bench-a.csv", "--json"]));
    has(&inner(&turn, "turned"), &refused[3..5]);
    assert!(!turn.contains_key("place_is"));
}

#[test]
fn what_a_verdict_rests_on() {
    let words = ["turn", A, "examples/bench-a-turned.csv", "--json"];
    let assumed = inner(&object(&run(&words)), "rests_on");
    let few = [
        ("register", Value::Number(8_388_607)),
        ("monitored_tones", Value::Number(1)),
        ("wrong_register_alike_one_in", Value::Number(4)),
        ("trellis", Value::Flag(false)),
    ];
    has(&assumed, &few);
    has(&assumed, &[("register_is", text("reset value, assumed"))]);
    let given = run(&[&words[..], &["--register=0x7fffff"]].concat());
    let given = inner(&object(&given), "rests_on");
    has(&given, &few);
    has(&given, &[("register_is", text("given"))]);
    let condition = "the register that was given is the writer's";
    has(&given, &[("holds_if", text(condition))]);
    has(&assumed, &[("holds_if", Value::Null)]);
    let words = [
        "turn",
        "examples/five-twos.txt",
        "examples/five-twos-turned.csv",
        "--json",
    ];
    let trellis = object(&run(&words));
    has(
        &trellis,
        &[("verdict", text("turned")), ("sure", Value::Flag(true))],
    );
    let ground = [
        ("trellis", Value::Flag(true)),
        ("register_is", text("not needed")),
    ];
    has(&inner(&trellis, "rests_on"), &ground);
}

#[test]
fn no_number_that_nobody_typed() {
    let words = [
        "read",
        A,
        "examples/bench-a.csv",
        "--json",
        "--register",
        "99999999999",
    ];
    let read = object(&run(&words));
    assert_eq!(head(&read), answer(12, "SEED", 0, 0, Value::Null));
    assert!(
        matches!(&read["sentence"], Value::Text(words) if words.contains("so not 99999999999"))
    );
    let set = tables("json-tone.txt", "coded", 8, &[(70_000, 2, 512)]);
    let check = object(&run(&["check", &set, "--json"]));
    assert_eq!(head(&check), answer(2, "TONE", 0, 0, Value::Null));
    has(
        &check,
        &[("sub_carrier", Value::Null), ("line", Value::Number(3))],
    );
}

#[test]
fn strange_file_names_are_escaped() {
    let name = "a \"quoted\" \\ \u{1} n\u{e4}me.txt";
    let set = file(name, "mode coded\ncarriers 8\n1 2 512\n1 2 512\n");
    let check = object(&run(&["check", &set, "--json"]));
    assert_eq!(head(&check), answer(3, "TWICE", 1, 0, Value::Null));
    let points = file("b \"q\".csv", "1,1\n1,1\n1,1\n1,1\n1,1\n1,1");
    assert_eq!(
        object(&run(&["turn", A, &points, "--json"]))["verdict"],
        text("perhaps turned")
    );
}

#[test]
fn what_was_written() {
    let out = crate::run::path("json-out.csv");
    let out = out.to_str().unwrap();
    let note = Value::List(vec![text(&format!("result written to {out}"))]);
    let one = run(&["encode", A, "examples/bench-a.hex", "--json", "--out", out]);
    has(&object(&one), &[("notes", note.clone())]);
    let many = run(&[
        "encode",
        A,
        "examples/bench-a-stream.hex",
        "--json",
        "--out",
        out,
    ]);
    has(&inner(&object(&many), "totals"), &[("notes", note)]);
}
