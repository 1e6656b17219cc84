//! Wrong calls, broken files, files that are not there: statuses 64, 65 and 66.

use crate::run::{file, path, run, run_with, tool, Ran};
use std::fs;

const A: &str = "examples/bench-a.txt";

/// Nothing is answered, and standard error says this.
fn faulty(ran: &Ran, status: i32, message: &str) {
    assert_eq!(ran.status, status, "{}{}", ran.out, ran.err);
    assert_eq!(ran.out, "");
    assert!(
        ran.err.starts_with("clevisroot: ") && ran.err.contains(message),
        "{}",
        ran.err
    );
}

const STARTS: &str = "--start takes a whole number from 0 to 7\nusage: ";

/// Words, and what the message says.
const CALLS: [(&[&str], &str); 48] = [
    (&[], "usage: "),
    (&["chek", A], "no command \"chek\""),
    (&["check"], "not the operands it takes"),
    (&["check", A, A], "usage: clevisroot check TABLES [--json]"),
    (&["figures", "1"], "not the operands"),
    (&["check", A, "--out", "x"], "no option --out here"),
    (
        &["check", A, "--register", "1"],
        "no option --register here",
    ),
    (&["turn", A, "-", "--out=x"], "no option --out here"),
    (&["read", A, "-", "--jsn"], "no option --jsn here"),
    (&["read", A, "-", "--json=1"], "--json takes no value"),
    (
        &["read", A, "-", "--json", "--json"],
        "--json is given twice",
    ),
    (&["read", A, "-", "--register"], "--register takes a value"),
    (
        &["read", A, "-", "--register", "-1"],
        "takes a whole number",
    ),
    (&["read", A, "-", "--register", ""], "takes a whole number"),
    (
        &["read", A, "-", "--register", "0x"],
        "takes a whole number from 1 or `find`",
    ),
    (
        &["read", A, "-", "--register=0x1g"],
        "takes a whole number from 1 or `find`",
    ),
    (
        &["encode", A, "-", "--register=find"],
        "takes a whole number from 1\n",
    ),
    (
        &["nearest", A, "-", "--register=find"],
        "takes a whole number from 1\n",
    ),
    (&["read", A, "-", "--all"], "no option --all here"),
    (&["read", A, "-", "--start"], "--start takes a value"),
    (&["encode", A, "-", "--start", "256"], STARTS),
    (&["read", A, "-", "--start", "-1"], STARTS),
    (&["turn", A, "-", "--start", ""], STARTS),
    (&["turn", A, "-", "--start=99999999999999999999"], STARTS),
    (&["read", A, "-", "--start", "1.5"], STARTS),
    (&["read", A, "-", "--start", "0x3"], STARTS),
    (
        &["read", A, "-", "--start", "0", "--start", "0"],
        "--start is given twice",
    ),
    (&["check", A, "--start", "1"], "no option --start here"),
    (&["--register"], "no command, and only --register\nusage: "),
    (&["--json"], "no command, and only --json\nusage: "),
    (&["--out", "x", "check", A], "no option --out here"),
    (&["help", "chek"], "no command \"chek\""),
    (&["completions", "tcsh"], "SHELL is one of bash, fish, zsh"),
    (
        &["check", A, "--\u{1b}[31m"],
        "no option --\\u{1b}[31m here",
    ),
    (&["read", A, "-", "--out"], "--out takes a value"),
    (
        &["read", A, "-", "--out", "-"],
        "--out takes the name of a file",
    ),
    (
        &["read", A, "-", "--svg="],
        "--svg takes the name of a file",
    ),
    (
        &["read", "-", "-"],
        "standard input can be one of the files",
    ),
    (
        &["read", A, "-", "--out=x", "--svg=x"],
        "name the same file",
    ),
    (&["map", "x", "1"], "BITS is not a whole number from 0"),
    (&["map", "1", "-1"], "LABEL is not a whole number from 0"),
    (&["point", "2", "1.5", "1"], "X is not a whole number"),
    (&["point", "2", "1", "--1"], "no option --1 here"),
    (&["point", "2", "1", ""], "Y is not a whole number"),
    (&["map", "x", "1", "--plain"], "BITS is not a whole number"),
    (&["map", "4", "9", "--plain=1"], "--plain takes no value"),
    (
        &["map", "--plain", "4", "9", "--plain"],
        "--plain is given twice",
    ),
    (&["--plain"], "no command, and only --plain\nusage: "),
];

#[test]
fn calls_that_are_wrong() {
    for (words, message) in CALLS {
        faulty(&run(words), 64, message);
    }
}

/// A text, the line that the message names, and what it says.
type Broken = (&'static str, usize, &'static str);

/// Table sets without a proper head.
const HEADS: [Broken; 12] = [
    ("", 1, "no line `mode`"),
    ("# nothing\n\n", 2, "no line `mode`"),
    ("mode coded\n", 1, "no line `carriers`"),
    ("carriers 8\n", 1, "no line `mode`"),
    ("mode trellis\n", 1, "mode `trellis` is not"),
    ("mode\n", 1, "is neither `mode coded`"),
    ("mode coded\nmode coded\n", 2, "a second line `mode`"),
    ("carriers 8\ncarriers 9\n", 2, "a second line `carriers`"),
    ("carriers -8\n", 1, "`-8` is not a whole number"),
    ("carriers 4,096\n", 1, "`4,096` is not a whole number"),
    ("mode coded\n1 2 512\n", 2, "come before the first tone"),
    ("outside 1 2 512\n", 1, "come before the first tone"),
];

/// What comes after a proper head of two lines.
const TONES: [Broken; 11] = [
    ("1 2\n", 3, "is neither"),
    ("\n1 2 512 9\n", 4, "is neither"),
    ("1 two 512\n", 3, "`two` is not a whole number"),
    ("1,2,512\n", 3, "`1,2,512` is neither"),
    ("1 2 -512\n", 3, "`-512` is not a whole number"),
    ("1 2 0x200\n", 3, "`0x200` is not a whole number"),
    ("outside 8 0 0\n", 3, "8 is not below `carriers`"),
    ("1 2 5\noutside 1 0 0\n", 4, "1 is on line 3 already"),
    (
        "outside 1 0 0\noutside 1 0 0\n",
        4,
        "1 is on line 3 already",
    ),
    ("outside 1 2\n", 3, "`outside` is not a whole number"),
    ("\u{1b}[2J 1 2\n", 3, "`\\u{1b}[2J` is not a whole number"),
];

#[test]
fn table_sets_that_cannot_be_parsed() {
    let heads = HEADS.map(|(text, line, message)| (text.to_string(), line, message));
    let tones = TONES
        .map(|(text, line, message)| (format!("mode coded\ncarriers 8\n{text}"), line, message));
    for (text, line, message) in heads.into_iter().chain(tones) {
        let ran = run_with(text.as_bytes(), &["check", "-"]);
        faulty(&ran, 65, &format!("standard input:{line}: "));
        faulty(&ran, 65, message);
    }
}

#[test]
fn frames_and_points_that_cannot_be_parsed() {
    let frames = [
        ("0g", 1, "`0g` is not hex"),
        ("\n0", 2, "`0` is not two hex digits a byte"),
        ("00 0x", 1, "`0x` is not two hex digits"),
        ("00\n123", 2, "`123` is not two hex digits"),
        ("0\u{0663}", 1, "is not hex"),
    ];
    let points = [
        ("1", 1, "`1` is not a point"),
        ("x,y\n\n1;1", 3, "`1;1` is not a point"),
        ("1,1,1", 1, "is not a point"),
        ("1,", 1, "is not a point"),
        ("1.0,1", 1, "is not a point"),
        ("--1,1", 1, "is not a point"),
        ("y,x", 1, "is not a point"),
    ];
    let calls = frames.map(|call| ("encode", call)).into_iter();
    let reads = points.map(|call| ("read", call)).into_iter();
    let turns = points.map(|call| ("turn", call)).into_iter();
    for (command, (text, line, message)) in calls.chain(reads).chain(turns) {
        let ran = run_with(text.as_bytes(), &[command, A, "-"]);
        faulty(&ran, 65, &format!("standard input:{line}: "));
        faulty(&ran, 65, message);
    }
}

#[test]
fn bytes_that_are_no_text() {
    let set = file("bytes.txt", b"mode coded\ncarriers \xff\n");
    faulty(
        &run(&["check", &set]),
        65,
        &format!("{set}:2: this is not UTF-8"),
    );
    for command in ["encode", "read", "nearest", "turn"] {
        let ran = run_with(b"\xc3\x28", &[command, A, "-"]);
        faulty(&ran, 65, "standard input:1: this is not UTF-8");
    }
    let nuls = file("nuls.txt", [0; 100]);
    faulty(&run(&["check", &nuls]), 65, "\\0");
    faulty(
        &run(&["check", "/dev/zero"]),
        65,
        "/dev/zero: longer than 16 MiB",
    );
}

#[test]
fn files_that_cannot_be_read() {
    let missing = path("missing.txt");
    let missing = missing.to_str().unwrap();
    faulty(&run(&["check", missing]), 66, missing);
    faulty(&run(&["check", ""]), 66, "No such file");
    faulty(&run(&["order", "examples"]), 66, "examples: ");
    faulty(&run(&["encode", A, missing]), 66, missing);
    faulty(&run(&["read", A, missing]), 66, missing);
    faulty(&run(&["turn", A, missing]), 66, missing);
}

#[test]
fn files_that_cannot_be_written() {
    let nowhere = path("no-such-folder/file");
    let nowhere = nowhere.to_str().unwrap();
    let frame = "examples/bench-a.hex";
    faulty(&run(&["order", A, "--out", nowhere]), 66, nowhere);
    faulty(&run(&["encode", A, frame, "--out", nowhere]), 66, nowhere);
    faulty(&run(&["encode", A, frame, "--svg", nowhere]), 66, nowhere);
    faulty(
        &run(&["encode", A, frame, "--svg", "examples"]),
        66,
        "examples: ",
    );
    // A refusal writes nothing, so it does not try.
    assert_eq!(
        run_with(b"20", &["encode", A, "-", "--out", nowhere]).status,
        11
    );
}

#[test]
fn a_refusal_leaves_files_alone() {
    let (out, svg) = (file("kept.csv", "kept"), file("kept.svg", "kept"));
    let words = ["encode", A, "-", "--out", &out, "--svg", &svg];
    assert_eq!(run_with(b"20", &words).status, 11);
    for kept in [out, svg] {
        assert_eq!(fs::read_to_string(kept).unwrap(), "kept");
    }
}

#[cfg(unix)]
#[test]
fn names_that_are_no_text() {
    use std::ffi::OsStr;
    use std::os::unix::ffi::OsStrExt;
    let name = OsStr::from_bytes(b"\xff\xfe");
    let call = |words: &[&OsStr]| Ran::of(&tool().args(words).output().unwrap());
    faulty(&call(&["check".as_ref(), name]), 66, "No such file");
    faulty(&call(&[name]), 64, "no command");
    faulty(&call(&["map".as_ref(), name, "1".as_ref()]), 64, "BITS");
    faulty(
        &call(&["map".as_ref(), "1".as_ref(), "--json".as_ref(), name]),
        64,
        "LABEL",
    );
}
