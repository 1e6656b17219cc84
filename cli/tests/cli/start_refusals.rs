//! Refusal 11 with `--start`: frames that do not fit their start, and starts that no byte has.

use crate::json::{object, text, Value};
use crate::run::{at, equal, result, run, run_with, tables};

const A: &str = "examples/bench-a.txt";

#[test]
fn what_is_wrong_with_a_frame() {
    let (lower, upper) = ("the lower 6 bits", "the upper 5 bits");
    let before = "of the first byte come before the start and must be 0";
    let after = "of the last byte are not used and must be 0";
    for (frame, sentence) in [
        ("4105", format!("{lower} {before}.")),
        ("6005", format!("{lower} {before}.")),
        ("400d", format!("{upper} {after}.")),
        ("4085", format!("{upper} {after}.")),
        ("4185", format!("{lower} {before}, and {upper} {after}.")),
    ] {
        let ran = at("6", "encode", A, frame);
        let sentence = format!("L = 5 bits from bit 6 on, in 2 bytes: {sentence}");
        assert_eq!((ran.status, ran.line(0)), (11, "refused: 11 FRAME"));
        assert_eq!(ran.line(1), "at place 0: the frame as a whole");
        assert_eq!(ran.line(2), sentence);
        let words = ["encode", A, "-", "--start=6", "--json"];
        let json = object(&run_with(frame.as_bytes(), &words));
        assert_eq!(json["sentence"], text(&sentence));
        assert_eq!(json["start"], Value::Number(6));
    }
    let one = at("1", "encode", A, "01");
    let lowest = "the lowest bit of the first byte comes before the start and must be 0.";
    assert!(one.line(2).ends_with(lowest), "{}", one.out);
    let one = at("2", "encode", A, "80");
    let upper = "the upper bit of the last byte is not used and must be 0.";
    assert!(one.line(2).ends_with(upper), "{}", one.out);
}

#[test]
fn another_number_of_bytes_than_start_and_size_need() {
    let needs = "L = 5 bits from bit 6 on, in 2 bytes";
    for (frame, sentence) in [
        ("", "and this frame has 0 bytes."),
        ("40", "and this frame has 1 byte."),
        ("400500", "and this frame has 3 bytes."),
        (
            "40054005",
            "and this frame has 4 bytes: put an empty line between frames.",
        ),
    ] {
        let ran = at("6", "encode", A, frame);
        assert_eq!(ran.status, 11);
        assert_eq!(ran.line(2), format!("{needs}, {sentence}"));
    }
    let set = tables("start-long.txt", "uncoded", 4096, &equal(4096, 15));
    for (start, bytes) in [("7", 7_682), ("7", 7_680), ("0", 7_681), ("7", 7_683)] {
        let ran = at(start, "encode", &set, &"00".repeat(bytes));
        let sentence = format!("and this frame has {bytes} bytes.");
        assert_eq!((ran.status, ran.line(2).ends_with(&sentence)), (11, true));
    }
}

#[test]
fn a_start_that_no_byte_has() {
    for start in ["8", "9", "255"] {
        let sentence = format!(
            "A frame starts at bit 0 to 7 of its first byte, not at bit {start}: give --start a \
             number from 0 to 7."
        );
        for (command, input) in [
            ("encode", "examples/bench-a.hex"),
            ("read", "examples/bench-a.csv"),
            ("nearest", "examples/bench-a.csv"),
            ("turn", "examples/bench-a-turned.csv"),
        ] {
            for register in [&[][..], &["--register=0"], &["--register=1"]] {
                let words = [&[command, A, input, "--start", start], register].concat();
                let ran = run(&words);
                assert_eq!((ran.status, ran.line(0)), (11, "refused: 11 FRAME"));
                assert_eq!(ran.line(1), "at place 0: the start of the frame");
                assert_eq!(ran.line(2), sentence);
                let json = object(&run(&[&words[..], &["--json"]].concat()));
                assert_eq!(json["sentence"], text(&sentence));
                assert_eq!(json["start"], Value::Number(start.parse().unwrap()));
                assert!(!json.contains_key("frame"));
            }
        }
        for command in ["read", "turn"] {
            let words = [command, A, "examples/bench-a.csv", "--register=find"];
            assert_eq!(run(&[&words[..], &["--start", start]].concat()).status, 11);
        }
    }
}

/// The tables, the count of points, the start, the register: the first that is refused is told.
#[test]
fn the_start_is_refused_in_its_turn() {
    let few = tables("start-few.txt", "coded", 8, &[(0, 2, 512)]);
    let points = "1,1\n1,1\n1,1\n1,1\n1,1\n1,1";
    for command in ["read", "nearest", "turn"] {
        for (set, points, start, status) in [
            (few.as_str(), "1,1", "8", 8),
            (A, "1,1", "8", 10),
            (A, points, "8", 11),
            (A, points, "7", 12),
        ] {
            let words = [command, set, "-", "--register=0", "--start", start];
            assert_eq!(run_with(points.as_bytes(), &words).status, status);
        }
    }
    for (set, frame, start, status) in [
        (few.as_str(), "00", "8", 8),
        (A, "15", "8", 11),
        (A, "15", "7", 11),
        (A, "800a", "7", 12),
    ] {
        let words = ["encode", set, "-", "--register=0", "--start", start];
        assert_eq!(run_with(frame.as_bytes(), &words).status, status);
    }
}

#[test]
fn a_refused_frame_of_a_stream_is_passed() {
    // From bit 3 on: a bit before the start is 1, then one byte too many.
    let text = "a8\n\na9\n\n00\n\n0000\n\nf8\n";
    let ran = at("3", "encode", A, text);
    assert_eq!(ran.status, 11);
    let totals =
        "# 5 symbols: 3 done, 2 refused (11 FRAME 2, first symbol 1), register after 131071";
    assert_eq!(ran.out.lines().last(), Some(totals));
    let three = run_with(b"15\n\n00\n\n1f", &["encode", A, "-"]);
    assert_eq!(result(&ran), result(&three));
    let words = ["encode", A, "-", "--start", "3", "--json"];
    let stream = object(&run_with(text.as_bytes(), &words));
    let Value::List(symbols) = &stream["symbols"] else {
        panic!("no list")
    };
    for (symbol, number) in symbols.iter().zip([0, 11, 0, 11, 0]) {
        let Value::Object(symbol) = symbol else {
            panic!("no object")
        };
        let told = [&symbol["start"], &symbol["number"]];
        assert_eq!(told, [&Value::Number(3), &Value::Number(number)]);
    }
}
