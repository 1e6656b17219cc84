//! `--start`: frames that start at a bit of their first byte, written and read wherever a frame is.

use crate::json::{object, text, Value};
use crate::run::{at, equal, file, numbers, path, result, run, run_with, tables, turned, written};
use reference::forms::{Mode, Tables};
use std::fs;

const A: &str = "examples/bench-a.txt";
const LARGE: &str = "examples/vdsl2-4096.txt";
const STARTS: [&str; 8] = ["0", "1", "2", "3", "4", "5", "6", "7"];

/// A frame of so many bits that look random.
fn random_bits(size: usize, seed: u64) -> Vec<bool> {
    let mut number = numbers(seed);
    (0..size).map(|_| number(2) == 1).collect()
}

/// The bytes of a frame that starts at this bit.
fn bytes_from(start: &str, bits: &[bool]) -> Vec<u8> {
    let start: usize = start.parse().unwrap();
    let mut bytes = vec![0; (start + bits.len()).div_ceil(8)];
    for (k, _) in bits.iter().enumerate().filter(|(_, bit)| **bit) {
        bytes[(start + k) / 8] |= 1 << ((start + k) % 8);
    }
    bytes
}

fn hex_from(start: &str, bits: &[bool]) -> String {
    let bytes = bytes_from(start, bits);
    bytes.iter().map(|byte| format!("{byte:02x}")).collect()
}

/// Table sets with their L: less than a byte, whole bytes, one bit, and as many as there are.
fn sets() -> Vec<(String, usize)> {
    let uncoded = |name, tones: &[_]| tables(name, "uncoded", 4096, tones);
    vec![
        (A.to_string(), 5),
        (LARGE.to_string(), 14_576),
        (uncoded("start-1.txt", &equal(1, 1)), 1),
        (uncoded("start-16.txt", &equal(4, 4)), 16),
        (uncoded("start-most.txt", &equal(4096, 15)), 61_440),
    ]
}

#[test]
fn every_start_there_and_back() {
    for (set, size) in sets() {
        let bits = random_bits(size, size as u64);
        let plain = run_with(hex_from("0", &bits).as_bytes(), &["encode", &set, "-"]);
        for start in STARTS {
            let hex = hex_from(start, &bits);
            let points = at(start, "encode", &set, &hex);
            assert_eq!((points.status, points.err.as_str()), (0, ""), "{set}");
            assert_eq!(result(&points), result(&plain), "{set} from {start}");
            let read = at(start, "read", &set, &points.out);
            assert_eq!((read.status, read.err.as_str()), (0, ""), "{set}");
            assert_eq!(result(&read).concat(), hex, "{set} from {start}");
            assert_eq!(read.line(0), points.line(0));
        }
    }
}

#[test]
fn the_second_implementation_gives_the_same_points() {
    let bits = random_bits(9, 5);
    let set = tables("start-both.txt", "uncoded", 3, &equal(3, 3));
    let lent = Tables {
        mode: Mode::Uncoded,
        bits: vec![3; 3],
        gains: vec![512; 3],
        tones: vec![0, 1, 2],
    };
    for (number, start) in (0..).zip(STARTS) {
        let frame = bytes_from(start, &bits);
        let answer = reference::encode_at(&lent, &frame, number, 4711, 3, 3);
        let points = answer.contents.expect("accepted");
        let points: Vec<String> = points.iter().map(|(x, y)| format!("{x},{y}")).collect();
        let csv = path("start-both.csv");
        let csv = csv.to_str().unwrap();
        let hex = file("start-both.hex", hex_from(start, &bits));
        let words = ["encode", &set, &hex, "--start", start, "--register=4711"];
        let ran = run(&[&words[..], &["--out", csv]].concat());
        assert_eq!(ran.status, 0, "{}", ran.out);
        let written = fs::read_to_string(csv).unwrap();
        assert_eq!(written.lines().skip(1).collect::<Vec<_>>(), points);
    }
}

#[test]
fn the_words_say_where_the_frame_starts() {
    for (start, words) in [
        ("0", "L = 5 bits in 1 byte"),
        ("3", "L = 5 bits from bit 3 on, in 1 byte"),
        ("7", "L = 5 bits from bit 7 on, in 2 bytes"),
    ] {
        let read = run(&["read", A, "examples/bench-a.csv", "--start", start]);
        let done = format!("# 0 DONE: {words}, register after 2097151");
        assert_eq!((read.status, read.line(0)), (0, done.as_str()));
        let svg = path("start.svg");
        let svg = svg.to_str().unwrap();
        let call = ["read", A, "examples/bench-a.csv", "--start", start];
        assert_eq!(run(&[&call[..], &["--svg", svg]].concat()).status, 0);
        let caption = format!(">read: {words}, register 8388607 before, 2097151 after<");
        assert!(fs::read_to_string(svg).unwrap().contains(&caption));
    }
}

/// The text is the same; JSON has the start, because the call names it.
#[test]
fn start_0_is_no_start() {
    for words in [
        ["encode", A, "examples/bench-a-stream.hex"],
        ["read", A, "examples/bench-a-stream.csv"],
        ["turn", A, "examples/bench-a-turned.csv"],
    ] {
        let (plain, zero) = (run(&words), run(&[&words[..], &["--start=0"]].concat()));
        assert_eq!((&zero.out, zero.status), (&plain.out, plain.status));
        let plain = run(&[&words[..], &["--json"]].concat());
        let zero = run(&[&words[..], &["--json", "--start=0"]].concat());
        assert!(!plain.out.contains("\"start\""), "{}", plain.out);
        assert!(zero.out.contains("\"start\": 0"), "{}", zero.out);
        let lines = zero.out.replace("  \"start\": 0,\n", "");
        assert_eq!(lines.replace("\"start\": 0, ", ""), plain.out);
    }
}

#[test]
fn a_stream_has_one_start() {
    let frames: Vec<Vec<bool>> = (0..20).map(|seed| random_bits(5, seed)).collect();
    for start in STARTS {
        let hex: Vec<String> = frames.iter().map(|bits| hex_from(start, bits)).collect();
        let points = at(start, "encode", A, &hex.join("\n\n"));
        assert_eq!(points.status, 0, "{}", points.out);
        let read = at(start, "read", A, &points.out);
        assert_eq!(
            (read.status, result(&read)),
            (0, hex.iter().map(String::as_str).collect())
        );
        let again = at(start, "encode", A, &read.out);
        assert_eq!(again.out, points.out);
        let totals = read.out.lines().last().unwrap();
        assert!(totals.starts_with("# 20 symbols: 20 done, 0 refused"));
        // Perhaps turned: no register is given.
        let turn = at(start, "turn", A, &turned(&points.out));
        assert_eq!(turn.status, 36, "{}", turn.out);
        for hex in &hex {
            assert!(turn
                .out
                .contains(&format!("turned:       read, frame {hex} (hex), ")));
        }
    }
}

#[test]
fn both_readings_of_turn_have_the_start() {
    let set = "examples/cannot-tell.txt";
    let csv = "examples/cannot-tell.csv";
    let ran = run(&["turn", set, csv, "--start", "6"]);
    assert_eq!(ran.status, 33);
    let words = "L = 5 bits from bit 6 on, in 2 bytes, register after 2097151";
    let straight = format!("as they came: read, frame 0000 (hex), {words}");
    let other = format!("turned:       read, frame c003 (hex), {words}");
    assert_eq!([ran.line(1), ran.line(2)], [straight, other]);
    let plain = run(&["turn", set, csv]);
    assert_eq!(ran.line(0), plain.line(0));
    let turn = object(&run(&["turn", set, csv, "--start", "6", "--json"]));
    let Value::Object(other) = &turn["turned"] else {
        panic!("no object")
    };
    for (reading, frame) in [(&turn, "0000"), (other, "c003")] {
        assert_eq!(reading["start"], Value::Number(6));
        assert_eq!(reading["frame"], text(frame));
    }
}

#[test]
fn the_register_is_found_wherever_the_frame_starts() {
    let bits = random_bits(14_576, 3);
    let points = written(LARGE, &hex_from("0", &bits), 4711);
    for start in STARTS {
        let words = ["read", LARGE, "-", "--register", "find", "--start", start];
        let read = run_with(points.as_bytes(), &words);
        assert_eq!(read.status, 0, "{}", read.out);
        let found = "# register before 4711, found from 40 monitored tones";
        assert_eq!(read.line(1), found);
        assert_eq!(result(&read).concat(), hex_from(start, &bits));
        let words = ["turn", LARGE, "-", "--register", "find", "--start", start];
        let wrong = run_with(
            turned(&points).as_bytes(),
            &[&words[..], &["--json"]].concat(),
        );
        assert_eq!(wrong.status, 32);
        let wrong = object(&wrong);
        let Value::Object(other) = &wrong["turned"] else {
            panic!("no object")
        };
        assert_eq!(other["frame"], text(&hex_from(start, &bits)));
    }
    // Where it cannot be told there is no frame, and the start is told all the same.
    let one = written(A, "15", 4711);
    let words = ["read", A, "-", "--register=find", "--start=5", "--json"];
    let read = run_with(one.as_bytes(), &words);
    assert_eq!(
        (read.status, &object(&read)["start"]),
        (33, &Value::Number(5))
    );
}

/// One monitored tone a symbol, so that only the stream gives the register.
#[test]
fn the_register_of_a_stream_is_found() {
    let frames: Vec<Vec<bool>> = (0..40).map(|seed| random_bits(5, seed)).collect();
    let hex = |start| -> Vec<String> { frames.iter().map(|bits| hex_from(start, bits)).collect() };
    let points = written(A, &hex("0").join("\n\n"), 4711);
    for start in ["3", "6"] {
        let words = ["read", A, "-", "--register=find", "--start", start];
        let read = run_with(points.as_bytes(), &words);
        assert_eq!(read.status, 0, "{}", read.out);
        assert_eq!(result(&read), hex(start));
    }
}

#[test]
fn a_frame_without_bits_has_a_byte_if_it_starts_inside_one() {
    let set = tables("start-silent.txt", "uncoded", 2, &[(1, 0, 0)]);
    for start in &STARTS[1..] {
        let words = format!("L = 0 bits from bit {start} on, in 1 byte");
        let encode = at(start, "encode", &set, "00");
        assert_eq!(
            (encode.status, result(&encode)[1].starts_with("0,0 ")),
            (0, true)
        );
        assert!(encode.line(0).contains(&words), "{}", encode.out);
        let read = at(start, "read", &set, "0,0");
        assert_eq!((read.status, result(&read)), (0, vec!["00"]));
        let none = at(start, "encode", &set, "");
        assert_eq!((none.status, none.line(0)), (11, "refused: 11 FRAME"));
        assert_eq!(
            none.line(2),
            format!("{words}, and this frame has 0 bytes.")
        );
        for byte in ["01", "80"] {
            assert_eq!(at(start, "encode", &set, byte).status, 11);
        }
        // They have a line each, so that a file can hold several.
        let two = at(start, "encode", &set, "00\n\n00");
        let totals = "# 2 symbols: 2 done, 0 refused, register after 524287";
        assert_eq!(two.out.lines().last(), Some(totals));
    }
    assert_eq!(at("0", "encode", &set, "").status, 0);
    assert_eq!(at("0", "encode", &set, "00").status, 11);
}

/// A refusal leaves the file of `--out` as it was.
#[test]
fn files_are_written_with_the_start() {
    let hex = file("start-out.hex", "kept");
    let words = ["read", A, "examples/bench-a.csv", "--out", &hex, "--start"];
    assert_eq!(run(&[&words[..], &["8"]].concat()).status, 11);
    assert_eq!(fs::read_to_string(&hex).unwrap(), "kept");
    assert_eq!(run(&[&words[..], &["6"]].concat()).status, 0);
    assert_eq!(fs::read_to_string(&hex).unwrap(), "4005\n");
    let encode = run(&["encode", A, &hex, "--start", "6"]);
    let plain = run(&["encode", A, "examples/bench-a.hex"]);
    assert_eq!(result(&encode), result(&plain));
}
