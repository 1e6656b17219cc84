//! Quarter turns where they are not told, uncoded tables; and what `check` and `read` say of them.

use crate::json::{inner, object, text, Value};
use crate::run::{
    equal, find, quarter_left, quarter_right, run, run_with, symbols_of, tables, turned, written,
};

const A: &str = "examples/bench-a.txt";
const NO_QUARTER: &str = "the points are not turned by a quarter";

/// An uncoded set with so many monitored tones.
fn uncoded(name: &str, monitored: usize) -> String {
    let spare = (8..8 + monitored).map(|tone| (tone, 0, 512)).collect();
    tables(name, "uncoded", 64, &[equal(3, 2), spare].concat())
}

/// What is sure whatever the register holds if there is no quarter turn: 12 monitored tones turned by a
/// quarter fit some register too.
#[test]
fn what_is_sure_whatever_the_register_has_a_condition() {
    let set = uncoded("quarter-uncoded-12.txt", 12);
    let points = written(&set, "2a", 4711);
    for (points, status, word) in [
        (points.clone(), 0, "straight"),
        (turned(&points), 32, "turned"),
    ] {
        for register in ["find", "4711"] {
            let words = ["turn", &set, "-", "--register", register];
            let ran = run_with(points.as_bytes(), &words);
            assert_eq!((ran.status, ran.out.lines().count()), (status, 3));
            let words = format!(", if {NO_QUARTER}");
            assert!(ran.line(0).contains(&words), "{}", ran.out);
            let words = ["turn", &set, "-", "--json", "--register", register];
            let json = object(&run_with(points.as_bytes(), &words));
            assert_eq!(json["verdict"], text(word));
            let ground = inner(&json, "rests_on");
            assert_eq!(ground["holds_if"], text(NO_QUARTER));
            assert_eq!(ground["theorems"], Value::List(vec![]));
            assert!(!json.contains_key("quarter_left") && !json.contains_key("quarter_right"));
        }
    }
    // Turned by a quarter, one of the two ways looks right to some register.
    for points in [quarter_left(&points), quarter_right(&points)] {
        let ran = find("turn", &set, &points);
        assert!(matches!(ran.status, 0 | 32), "{}", ran.out);
        let words = format!(", if {NO_QUARTER}, whatever the register was: ");
        assert!(ran.line(0).contains(&words), "{}", ran.out);
    }
}

/// A register that `read` finds may be none of the writer's, if the points are turned by a quarter.
#[test]
fn a_register_that_is_found_has_the_condition() {
    let set = uncoded("quarter-uncoded-find.txt", 12);
    let points = written(&set, "2a", 4711);
    let ran = find("read", &set, &points);
    assert_eq!(ran.status, 0, "{}", ran.out);
    let words = format!("register before 4711, found from 12 monitored tones, if {NO_QUARTER}");
    assert!(ran.out.contains(&words), "{}", ran.out);
    let words = ["read", &set, "-", "--register=find", "--json"];
    let json = object(&run_with(points.as_bytes(), &words));
    assert_eq!(json["holds_if"], text(NO_QUARTER));
    // Coded, no quarter turn is read.
    let set = "examples/twelve-monitored.txt";
    let points = written(set, "02", 4711);
    let ran = find("read", set, &points);
    let words = "register before 4711, found from 12 monitored tones\n";
    assert!(ran.out.contains(words), "{}", ran.out);
    let words = ["read", set, "-", "--register=find", "--json"];
    let json = object(&run_with(points.as_bytes(), &words));
    assert_eq!(json["holds_if"], Value::Null);
    for points in [quarter_left(&points), quarter_right(&points)] {
        assert_ne!(find("read", set, &points).status, 0);
    }
}

/// Where no register fits, a quarter turn is among the causes.
#[test]
fn a_register_that_is_not_found_may_be_a_quarter_turn() {
    let spare: Vec<_> = (8..28).map(|tone| (tone, 0, 512)).collect();
    for (mode, see) in [("coded", " (see `turn`)."), ("uncoded", ".")] {
        let name = format!("quarter-not-found-{mode}.txt");
        let set = tables(&name, mode, 64, &[equal(4, 2), spare.clone()].concat());
        let points = quarter_left(&written(&set, "02", 4711));
        let ran = find("read", &set, &points);
        let words = format!("so look for noise, other tables or a quarter turn{see}");
        assert!(ran.status == 33 && ran.out.contains(&words), "{}", ran.out);
    }
}

/// With the writer's register a monitored tone refuses a quarter turn, so that its condition is enough.
#[test]
fn a_given_register_is_the_only_condition() {
    let set = uncoded("quarter-uncoded-1.txt", 1);
    let points = written(&set, "2a", 4711);
    let given = ["turn", &set, "-", "--register", "4711"];
    let ran = run_with(points.as_bytes(), &given);
    assert!(
        ran.status == 0 && !ran.line(0).contains("quarter"),
        "{}",
        ran.out
    );
    for points in [quarter_left(&points), quarter_right(&points)] {
        let ran = run_with(points.as_bytes(), &given);
        assert_eq!((ran.status, ran.out.lines().count()), (34, 3));
        let words = "other tables, a quarter turn (which is told of coded tables only) or another register ";
        assert!(ran.line(0).contains(words), "{}", ran.out);
    }
    let ran = run_with("2,2\n".repeat(4).as_bytes(), &given);
    let words = "Neither: the points are refused both ways whatever the register, so look for noise, \
                 other tables or a quarter turn (which is told of coded tables only) before you swap the clips.";
    assert_eq!(ran.line(0), words);
}

#[test]
fn totals_of_an_uncoded_stream_have_the_condition() {
    let set = uncoded("quarter-uncoded-stream.txt", 12);
    let frames = vec!["2a".to_string(); 3];
    let text = symbols_of(&set, &frames, "4711").join("\n");
    for register in ["find", "4711"] {
        let words = ["turn", &set, "-", "--register", register];
        let ran = run_with(text.as_bytes(), &words);
        let totals = format!("3 symbols: 3 straight; in all: straight, if {NO_QUARTER}");
        assert_eq!(
            (ran.status, ran.out.lines().last()),
            (0, Some(totals.as_str()))
        );
    }
    let set = uncoded("quarter-uncoded-given.txt", 1);
    let text = symbols_of(&set, &frames, "4711").join("\n");
    let ran = run_with(text.as_bytes(), &["turn", &set, "-", "--register=4711"]);
    let totals =
        "3 symbols: 3 straight; in all: straight, if the register that was given is the writer's";
    assert_eq!((ran.status, ran.out.lines().last()), (0, Some(totals)));
}

#[test]
fn check_says_whether_a_quarter_turn_shows() {
    let ones = tables(
        "quarter-ones.txt",
        "uncoded",
        8,
        &[(0, 1, 512), (1, 2, 512), (2, 0, 512)],
    );
    let one_tone = uncoded("quarter-check-1.txt", 1);
    let none = uncoded("quarter-check-0.txt", 0);
    for (set, words, shows, always) in [
        ("examples/cannot-tell.txt", "show whatever the register (theorem quarter-any-register)", true, true),
        (&ones, "show whatever the register, because 1 tone has 1 bit; uncoded, this is not proved", true, true),
        (&one_tone, "show if the register is known, because 1 tone is monitored; uncoded, this is not proved", true, false),
        (&none, "do not show, because no tone has 1 bit and none is monitored", false, false),
    ] {
        let ran = run(&["check", set]);
        assert_eq!(ran.line(5), format!("points turned by a quarter {words}"));
        let json = object(&run(&["check", set, "--json"]));
        assert_eq!(json["quarter_turn_shows"], Value::Flag(shows));
        assert_eq!(json["quarter_turn_shows_without_register"], Value::Flag(always));
    }
}

/// What `read` says of a point that a quarter turn explains.
#[test]
fn refusals_of_read_name_a_quarter_turn() {
    let left = quarter_left(&written(A, "15", 8_388_607));
    let ran = run_with(left.as_bytes(), &["read", A, "-"]);
    let words = "The point (-1, 1) is none of the 2 points of a tone with 1 bit: a quarter turn makes such \
                 points (see `turn`); only exact points are read (see `nearest`).";
    assert_eq!((ran.status, ran.line(2)), (13, words));
    let set = "examples/twelve-monitored.txt";
    let points = written(set, "02", 4711);
    for (points, side) in [
        (quarter_left(&points), "left"),
        (quarter_right(&points), "right"),
    ] {
        let ran = run_with(points.as_bytes(), &["read", set, "-", "--register=4711"]);
        let words = format!(
            "give: it is that one turned by a quarter to the {side}, so see whether the register"
        );
        assert_eq!(ran.status, 14);
        assert!(ran.line(2).contains(&words), "{}", ran.out);
        let words = "and whether all points are turned by a quarter (see `turn`).";
        assert!(ran.line(2).ends_with(words), "{}", ran.out);
    }
}

/// Uncoded, `turn` is no help.
#[test]
fn refusals_of_uncoded_points_do_not_name_turn() {
    let set = tables(
        "quarter-read.txt",
        "uncoded",
        8,
        &[(0, 1, 512), (1, 0, 512)],
    );
    let ran = run_with(b"1,-1\n1,1\n", &["read", &set, "-"]);
    assert!(
        ran.status == 13 && !ran.line(2).contains("see `turn`"),
        "{}",
        ran.out
    );
    let ran = run_with(b"1,1\n1,-1\n", &["read", &set, "-"]);
    let words = "turned by a quarter, which `turn` tells of coded tables only.";
    assert!(
        ran.status == 14 && ran.line(2).ends_with(words),
        "{}",
        ran.out
    );
}
