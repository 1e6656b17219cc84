//! Symbols that cannot be counted, table sets that are refused, and calls that are wrong: no report.

use crate::json::{object, text, Value};
use crate::refusals::refused;
use crate::run::{equal, file, path, run, run_with, tables};
use std::fs;

/// The most symbols that the report of a pair holds.
const MOST: usize = 65_535;

#[test]
fn full() {
    let log = "15 15\n".repeat(MOST);
    let ran = run_with(log.as_bytes(), &["report", "-"]);
    assert_eq!(ran.status, 0, "{}", ran.err);
    assert!(
        ran.out.contains("\nClean in these 65535 symbols"),
        "{}",
        ran.out
    );
    let log = file(
        "full.log",
        format!("pair: long\n{log}15 refused 14\n15 15\n"),
    );
    let place = format!("at place 0: symbol 65535 of pair long, line 65537 of {log}");
    let sentence =
        "holds 65535 symbols, and this is one more: split the log, and report the parts as \
                    pairs of their own.";
    refused(&run(&["report", &log]), 22, "FULL", &place, sentence);
    let json = object(&run(&["report", "examples/pair-7.log", &log, "--json"]));
    assert_eq!(
        [&json["number"], &json["name"]],
        [&Value::Number(22), &text("FULL")]
    );
    assert_eq!(
        [&json["symbol"], &json["line"]],
        [&Value::Number(65_535), &Value::Number(65_537)]
    );
    assert_eq!([&json["pair"], &json["file"]], [&text("long"), &text(&log)]);
}

#[test]
fn frame() {
    let longest = "00".repeat(7681);
    let longer = "00".repeat(7682);
    for (symbol, sentence) in [
        (
            "15 1500".to_string(),
            "sent has 1 byte and the one that was read 2: frames of one table set",
        ),
        (
            "- 15".to_string(),
            "sent has 0 bytes and the one that was read 1",
        ),
        (
            format!("{longer} {longer}"),
            "sent is too long: no frame has more than 7681 bytes.",
        ),
        (
            format!("{longest} {longer}"),
            "read is too long: no frame has more than 7681 bytes.",
        ),
        (
            format!("{longer} refused 14"),
            "sent is too long: no frame has more than 7681 bytes.",
        ),
        (
            "15 refused 0".to_string(),
            "0 is no refusal, for it says that the symbol was read",
        ),
        ("15 refused 0 DONE".to_string(), "0 is no refusal"),
    ] {
        let log = format!("pair: a\n00 00\n\n{symbol}\n");
        let ran = run_with(log.as_bytes(), &["report", "-"]);
        let place = "at place 0: symbol 1 of pair a, line 4 of standard input";
        refused(&ran, 11, "FRAME", place, sentence);
    }
    let log = format!("{longest} {longest}\n{longest} refused 14\n");
    assert_eq!(run_with(log.as_bytes(), &["report", "-"]).status, 0);
}

/// Where the table set is known, a frame that is none of it would make the rate wrong.
#[test]
fn frames_of_another_table_set() {
    for (symbol, sentence) in [
        ("1500 1500", "The frame that was sent is none of examples/bench-a.txt (L = 5 bits in 1 byte, and this frame has 2 bytes)"),
        ("ff refused 14", "The frame that was sent is none of examples/bench-a.txt (L = 5 bits in 1 byte: the upper 3 bits of the last byte"),
        ("15 ff", "The frame that was read is none of examples/bench-a.txt (L = 5 bits"),
        ("- -", "and this frame has 0 bytes): name the table set and the start that were used, or none."),
        ("15 1500", "The frame that was read is none of examples/bench-a.txt (L = 5 bits in 1 byte, and this frame has 2 bytes)"),
        ("15 refused 0", "0 is no refusal, for it says that the symbol was read"),
    ] {
        let log = format!("pair: a\ntables: examples/bench-a.txt\n00 00\n{symbol}\n");
        let ran = run_with(log.as_bytes(), &["report", "-"]);
        let place = "at place 0: symbol 1 of pair a, line 4 of standard input";
        refused(&ran, 11, "FRAME", place, sentence);
    }
}

#[test]
fn table_sets_that_are_refused() {
    let set = tables("report-few.txt", "coded", 8, &equal(3, 2));
    let log = format!("pair: a\ntables: {set}\n15 15\n");
    let ran = run_with(log.as_bytes(), &["report", "examples/pair-7.log", "-"]);
    let place = format!("at place 0: the table set as a whole, of pair a with {set}");
    refused(&ran, 8, "FEW", &place, "number here is 3:");
    let set = tables("report-gain.txt", "coded", 8, &[(7, 2, 0)]);
    let log = format!("tables: {set}\n");
    let ran = run_with(log.as_bytes(), &["report", "-", "--json"]);
    assert_eq!(ran.status, 6);
    assert_eq!(
        [&object(&ran)["place"], &object(&ran)["sub_carrier"]],
        [&Value::Number(7); 2]
    );
    assert_eq!(object(&ran)["pair"], text("standard input"));
}

/// Rows have no place for a refusal.
#[test]
fn a_refusal_with_csv_is_told_elsewhere() {
    let set = tables("report-odd.txt", "coded", 8, &[(7, 1, 512)]);
    let tables = format!("tables: {set}\n15 15\n");
    for (log, status, reason) in [
        (
            "15 15\n15 1500\n",
            11,
            "clevisroot: refused: 11 FRAME at place 0: symbol 1 of pair",
        ),
        (
            &tables,
            7,
            "clevisroot: refused: 7 ODD at place 0: the table set as a whole, of pair",
        ),
    ] {
        let words = ["report", "examples/pair-7.log", "-", "--csv"];
        let ran = run_with(log.as_bytes(), &words);
        assert_eq!((ran.status, ran.out.as_str()), (status, ""));
        assert!(ran.err.starts_with(reason), "{}", ran.err);
    }
}

#[test]
fn a_refusal_or_a_fault_leaves_the_page_alone() {
    let page = file("kept.html", "kept");
    for (log, status) in [("15 15\n15 refused 0\n", 11), ("15 15\n1 1\n", 65)] {
        let words = ["report", "examples/pair-7.log", "-", "--html", &page];
        assert_eq!(run_with(log.as_bytes(), &words).status, status);
        assert_eq!(fs::read_to_string(&page).unwrap(), "kept");
    }
}

/// Words, and what the message says.
const CALLS: [(&[&str], &str); 18] = [
    (&[], "report: no LOG, and no pair from --tables, --sent and --points\nusage: clevisroot report [LOG...]"),
    (&["--json"], "no LOG, and no pair"),
    (&["--tables", "a"], "takes --tables, --sent and --points, all three"),
    (&["a.log", "--sent", "a", "--points", "b"], "all three"),
    (&["a.log", "--pair", "a"], "a log has lines for them"),
    (&["a.log", "--register", "1"], "a log has lines for them"),
    (&["a.log", "--start", "0"], "a log has lines for them"),
    (&["a.log", "--register", "find"], "takes a whole number from 1\n"),
    (&["-", "-"], "standard input can be one of the files, not two"),
    (
        &["-", "--tables", "a", "--sent", "b", "--points", "-"],
        "standard input can be one of the files, not two",
    ),
    (&["a.log", "--stop"], "no option --stop here"),
    (&["a.log", "--out", "x"], "no option --out here"),
    (&["a.log", "--svg", "x"], "no option --svg here"),
    (&["a.log", "--html"], "--html takes a value"),
    (&["a.log", "--html", "-"], "--html takes the name of a file"),
    (&["a.log", "--pair", " "], "--pair takes a name"),
    (&["a.log", "--csv", "--json"], "--csv and --json are two forms of one answer"),
    (&["a.log", "--csv=x"], "--csv takes no value"),
];

#[test]
fn calls_that_are_wrong() {
    for (words, message) in CALLS {
        let ran = run(&[&["report"], words].concat());
        assert_eq!(
            (ran.status, ran.out.as_str()),
            (64, ""),
            "{words:?}: {}",
            ran.err
        );
        assert!(ran.err.contains(message), "{words:?}: {}", ran.err);
    }
    let ran = run(&["check", "examples/bench-a.txt", "--html", "x"]);
    assert!(ran.status == 64 && ran.err.contains("no option --html here"));
}

#[test]
fn the_page_overwrites_nothing_that_is_read() {
    let set = file("report-set.txt", "mode uncoded\ncarriers 1\n0 8 512\n");
    let log = file("report-kept.log", "tables: report-set.txt\nff ff\n");
    let ran = run(&["report", &log, "--html", &log]);
    assert!(
        ran.status == 64
            && ran
                .err
                .contains("--html would overwrite LOG, which is read")
    );
    let ran = run(&["report", "examples/pair-7.log", &log, "--html", &set]);
    let message = "report-set.txt, which is read";
    assert!(ran.status == 64 && ran.err.contains(message), "{}", ran.err);
    let (sent, points) = (
        file("report-kept.hex", "ff"),
        file("report-kept.csv", "1,1"),
    );
    let words = [
        "report", "--tables", &set, "--sent", &sent, "--points", &points, "--html",
    ];
    for (kept, name) in [(&set, "--tables"), (&sent, "--sent"), (&points, "--points")] {
        let ran = run(&[&words[..], &[kept.as_str()]].concat());
        let message = format!("--html would overwrite {name}, which is read");
        assert!(
            ran.status == 64 && ran.err.contains(&message),
            "{}",
            ran.err
        );
    }
    assert!(!path("report-kept.html").exists());
    assert_eq!(fs::read_to_string(&sent).unwrap(), "ff");
}
