//! What verdicts on four ways rest on: their theorems, their JSON, and points that no way
//! is read.

use crate::json::{inner, list, object, text, Value};
use crate::run::{run, run_with, written, Ran};

const A: &str = "examples/bench-a.txt";
const HALF: &str = "examples/bench-a-turned.csv";

fn turn(set: &str, points: &str, words: &[&str]) -> Ran {
    run_with(points.as_bytes(), &[&["turn", set, "-"], words].concat())
}

#[test]
fn json() {
    let theorems = |names: &[&str]| Value::List(names.iter().map(|name| text(name)).collect());
    for (words, verdict, condition, names) in [
        (
            &["--register=8388607"] as &[&str],
            "quarter left",
            text("the register that was given is the writer's"),
            &["half-turn-monitored", "quarter-any-register"] as &[&str],
        ),
        (&[], "quarter", Value::Null, &["quarter-any-register"]),
        (
            &["--register=1"],
            "quarter",
            Value::Null,
            &["quarter-any-register"],
        ),
    ] {
        let call = ["turn", A, "examples/bench-a-quarter.csv", "--json"];
        let ran = run(&[&call, words].concat());
        let json = object(&ran);
        assert_eq!((ran.status, &json["verdict"]), (37, &text(verdict)));
        assert_eq!(json["sure"], Value::Flag(true));
        let ground = inner(&json, "rests_on");
        assert_eq!(
            (&ground["holds_if"], &ground["theorems"]),
            (&condition, &theorems(names))
        );
        assert_eq!(json["name"], text("OFFGRID"));
        assert_eq!(inner(&json, "turned")["name"], text("OFFGRID"));
        let read = inner(&json, "quarter_left");
        let frame = if words == ["--register=1"] {
            Value::Null
        } else {
            text("15")
        };
        assert_eq!(read["frame"], frame, "{}", ran.out);
        assert_eq!(inner(&json, "quarter_right")["name"], text("MONITOR"));
    }
}

/// Calls of other verdicts, and the theorems that they name.
const NAMED: [[&str; 4]; 5] = [
    [
        A,
        HALF,
        "--register=8388607",
        "theorems half-turn-monitored, quarter-any-register",
    ],
    [
        "examples/five-twos.txt",
        "examples/five-twos-turned.csv",
        "--start=0",
        "theorems half-turn-any-register, quarter-any-register",
    ],
    [
        "examples/twelve-monitored.txt",
        "examples/twelve-monitored-turned.csv",
        "--register=find",
        "theorems half-turn-monitored, quarter-any-register",
    ],
    [
        "examples/cannot-tell.txt",
        "examples/cannot-tell.csv",
        "--start=0",
        "theorems half-turn, quarter-any-register",
    ],
    [A, HALF, "--register=find", "theorem quarter-any-register"],
];

/// The ways without a quarter turn name their theorems too.
#[test]
fn theorems_of_the_other_verdicts() {
    for [set, points, word, names] in NAMED {
        let ran = run(&["turn", set, points, word]);
        assert!(
            ran.line(0).ends_with(&format!(" ({names}).")),
            "{}",
            ran.out
        );
        let json = object(&run(&["turn", set, points, word, "--json"]));
        let listed = inner(&json, "rests_on")["theorems"].clone();
        let names = names.split_once(' ').unwrap().1;
        assert_eq!(listed, Value::List(names.split(", ").map(text).collect()));
    }
    // Where nothing is sure, there is none.
    for (set, points) in [
        (A, HALF),
        ("examples/clip.txt", "examples/clip-neither.csv"),
    ] {
        let json = object(&run(&["turn", set, points, "--json"]));
        assert_eq!(inner(&json, "rests_on")["theorems"], Value::List(vec![]));
        assert!(!run(&["turn", set, points]).line(0).contains("theorem"));
    }
}

#[test]
fn no_way_at_all_is_read() {
    for points in [
        "2,2\n".repeat(6),
        "-32768,-32768\n".repeat(6),
        "-99999,99999\n".repeat(6),
    ] {
        let ran = turn(A, &points, &["--register=8388607"]);
        assert_eq!(ran.status, 34, "{}", ran.out);
        let words =
            "Neither: the points are refused all four ways whatever the register, so look for";
        assert!(ran.line(0).starts_with(words), "{}", ran.out);
        assert!((1..5).all(|line| ran.line(line).contains("refused, 13 OFFGRID at place 0")));
        assert_eq!(ran.out.lines().count(), 5);
    }
    // The symbol of another register: another one reads it, and that one does not.
    let points = written(A, "15", 1);
    let ran = turn(A, &points, &["--register=8388607"]);
    let words =
        "Neither: the points are refused all four ways with register 8388607, which was given, so";
    assert!(
        ran.status == 34 && ran.line(0).starts_with(words),
        "{}",
        ran.out
    );
    let json = object(&turn(A, &points, &["--register=8388607", "--json"]));
    assert!(["turned", "quarter_left", "quarter_right"]
        .iter()
        .all(|key| { inner(&json, key)["number"] != Value::Number(0) }));
    assert!(list(&inner(&json, "rests_on")["theorems"]).is_empty());
}
