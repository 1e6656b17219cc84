//! Logs as they may be written, and what is wrong with others.

use crate::report::of;
use crate::run::{file, numbers, path, root, run, run_with};
use std::fs;

#[test]
fn a_pair_without_a_name_has_that_of_its_log() {
    let log = file("Box 3, pair 12.old.log", "15 15\n");
    assert!(run(&["report", &log])
        .line(1)
        .starts_with("Box 3, pair 12.old "));
    assert!(of("15 15\n").line(1).starts_with("standard input "));
    let named = of("pair:   Kiln Lane: 7  # not this\n15 15\n");
    assert!(named.line(1).starts_with("Kiln Lane: 7 "));
}

#[test]
fn a_name_does_not_steer_the_terminal() {
    let ran = of("pair: a\u{1b}[31mb\n15 15\n");
    assert!(ran.line(1).starts_with("a\\u{1b}[31mb "), "{}", ran.out);
}

/// By its end, so that names with a different start never look alike.
#[test]
fn a_long_name_is_cut() {
    let name = |name: &str| of(&format!("pair: {name}\n15 15\n")).line(1).to_string();
    let shown = format!("a/{}", "x".repeat(118));
    assert!(name(&shown).starts_with(&format!("{shown}  ")));
    let long = name(&format!("{shown}{}", "y".repeat(5000)));
    assert!(long.starts_with(&format!("{shown}\u{2026}  ")), "{long}");
}

#[test]
fn files_are_taken_from_the_log_s_folder() {
    let folder = path("report-folder");
    fs::create_dir_all(folder.join("sets")).unwrap();
    let set = "mode uncoded\ncarriers 1\n0 8 512\n";
    fs::write(folder.join("sets/one.txt"), set).unwrap();
    let log = folder.join("a.log");
    fs::write(&log, "tables: sets/one.txt\nff ff\n").unwrap();
    let ran = run(&["report", log.to_str().unwrap()]);
    assert!(
        ran.out
            .contains("wrong bits: 0 of 8 bits (8 a frame), rate 0"),
        "{}{}",
        ran.out,
        ran.err
    );
    assert!(ran.out.contains("sets/one.txt: uncoded"), "{}", ran.out);
}

#[test]
fn logs_may_have_editors_marks_and_line_ends() {
    let log =
        "\u{feff}pair: one\r\n\r\n# symbols\r\n 15\t0x15 # the same\r\n\r\n0X00 refused 14\r\n- -";
    let row = of(log)
        .line(1)
        .split_whitespace()
        .collect::<Vec<_>>()
        .join(" ");
    assert_eq!(row, "one 3 1 0 0 0 1");
}

/// A log, the line that the message names, and what it says.
const BROKEN: [(&str, usize, &str); 31] = [
    ("15", 1, "`15` is no symbol: the frame that was sent, then the one that was read"),
    ("15 15 15", 1, "`15 15 15` is no symbol"),
    ("15 refused", 1, "`15 refused` is no symbol"),
    ("15 refused 14 MONITOR now", 1, "is no symbol"),
    ("\n# one\n15 1g", 3, "`1g` is not hex"),
    ("15 MONITOR", 1, "`MONITOR` is not hex"),
    ("15 1", 1, "`1` is not two hex digits a byte"),
    ("1 15", 1, "`1` is not two hex digits a byte"),
    ("0x 15", 1, "`0x` is not two hex digits a byte"),
    ("15 refused x", 1, "`x` is not the number of a refusal"),
    ("15 refused -1", 1, "`-1` is not the number of a refusal"),
    ("15 refused +1", 1, "`+1` is not the number of a refusal"),
    ("15 refused 4294967296", 1, "`4294967296` is not the number of a refusal"),
    ("15 refused 14 OFFGRID", 1, "refusal 14 is MONITOR, not `OFFGRID`"),
    ("15 refused 14 monitor", 1, "refusal 14 is MONITOR, not `monitor`"),
    ("15 refused 99 MONITOR", 1, "refusal 99 is UNKNOWN, not `MONITOR`"),
    (
        "pair: a\ntable: b",
        2,
        "`table:` is no header: they are `pair:`, `tables:`, `sent:`, `points:`, `register:`, `start:`",
    ),
    ("15:15", 1, "`15:` is no header"),
    ("pair:", 1, "`pair:` says nothing"),
    ("pair: a\npair: b", 2, "a second line `pair:`"),
    ("15 15\npair: a", 2, "`pair:` comes after a symbol: headers come first"),
    ("tables: -\n15 15", 1, "`tables:` names a file, and `-` is standard input"),
    ("\nsent: a.hex", 2, "`sent:` needs a line `points:` too"),
    ("points: a.csv", 1, "`points:` needs a line `tables:` too"),
    ("tables: a.txt\npoints: a.csv", 2, "`points:` needs a line `sent:` too"),
    ("tables: a.txt\nregister: 1\n15 15", 2, "`register:` needs a line `points:` too"),
    ("start: 1\n15 15", 1, "`start:` needs a line `tables:` too"),
    ("tables: a.txt\nstart: 8\n15 15", 2, "`start:` is a whole number from 0 to 7, not `8`"),
    (
        "tables: a\nsent: b\npoints: c\nregister: 0",
        4,
        "`register:` is a whole number from 1 to 8388607, not `0`",
    ),
    ("tables: a\nsent: b\npoints: c\nregister: find", 4, "not `find`"),
    (
        "tables: examples/bench-a.txt\nsent: examples/bench-a.hex\npoints: examples/bench-a.csv\n15 15",
        4,
        "`15 15`: a log with `points:` has no symbols of its own",
    ),
];

#[test]
fn logs_that_cannot_be_parsed() {
    for (log, line, message) in BROKEN {
        let ran = run_with(log.as_bytes(), &["report", "-"]);
        assert_eq!(
            (ran.status, ran.out.as_str()),
            (65, ""),
            "{log}: {}",
            ran.err
        );
        let start = format!("clevisroot: standard input:{line}: ");
        assert!(
            ran.err.starts_with(&start) && ran.err.contains(message),
            "{}",
            ran.err
        );
    }
    let ran = run_with(b"15 15\n\xff", &["report", "-"]);
    assert_eq!(ran.status, 65);
    assert!(
        ran.err.contains("standard input:2: this is not UTF-8"),
        "{}",
        ran.err
    );
}

#[test]
fn files_that_are_not_there() {
    let missing = path("no-such.log");
    let missing = missing.to_str().unwrap();
    let nowhere = path("no-such-folder/report.html");
    for (words, log, message) in [
        (vec!["report", missing], "", missing),
        (vec!["report", "examples/pair-7.log", missing], "", missing),
        (
            vec!["report", "-"],
            "tables: no-such.txt\n15 15\n",
            "no-such.txt",
        ),
        (
            vec!["report", "-"],
            "tables: examples/bench-a.txt\nsent: no-such.hex\npoints: examples/bench-a.csv\n",
            "no-such.hex",
        ),
        (
            vec!["report", "-", "--html", nowhere.to_str().unwrap()],
            "15 15\n",
            "report.html",
        ),
    ] {
        let ran = run_with(log.as_bytes(), &words);
        assert_eq!((ran.status, ran.out.as_str()), (66, ""), "{}", ran.err);
        assert!(ran.err.contains(message), "{}", ran.err);
    }
}

/// A log with a few bytes changed is counted, refused or faulty, and never anything else.
#[test]
fn damaged_logs() {
    const BYTES: &[u8] = b"0123456789abf -#:\nrx\xff";
    let set = root().join("examples/bench-a.txt");
    let log = fs::read_to_string(root().join("examples/pair-8.log")).unwrap();
    let log = log.replace("bench-a.txt", set.to_str().unwrap());
    let symbols = log.find("15 15").unwrap();
    let mut number = numbers(8);
    let mut statuses = [0; 256];
    for _ in 0..200 {
        let mut bytes = log.clone().into_bytes();
        for _ in 0..1 + number(4) {
            let at = symbols + number((bytes.len() - symbols) as u64) as usize;
            bytes[at] = BYTES[number(BYTES.len() as u64) as usize];
        }
        let damaged = file("report-damaged.log", bytes);
        let ran = run(&["report", &damaged]);
        assert!(
            matches!(ran.status, 0 | 11 | 65),
            "{} {}",
            ran.status,
            ran.err
        );
        statuses[ran.status as usize] += 1;
    }
    assert!(
        [0, 11, 65].iter().all(|status| statuses[*status] > 5),
        "{statuses:?}"
    );
}
