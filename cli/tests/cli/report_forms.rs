//! `report --json` and `report --csv`.

use crate::json::{head, object, text, Value};
use crate::run::{run, run_with};
use std::collections::BTreeMap;

type Object = BTreeMap<String, Value>;

/// The objects of the pairs that a call reports.
fn pairs(words: &[&str], log: &str) -> Vec<Object> {
    let ran = run_with(log.as_bytes(), &[&["report", "--json"], words].concat());
    assert_eq!(ran.status, 0, "{}", ran.err);
    let report = object(&ran);
    assert_eq!(report["command"], text("report"));
    let Value::List(pairs) = &report["pairs"] else {
        panic!("no list: {}", ran.out)
    };
    let object = |pair: &Value| match pair {
        Value::Object(pair) => pair.clone(),
        other => panic!("no object: {other:?}"),
    };
    pairs.iter().map(object).collect()
}

fn has(object: &Object, fields: &[(&str, Value)]) {
    for (key, value) in fields {
        assert_eq!(&object[*key], value, "{key}");
    }
}

#[test]
fn json_has_what_the_text_has() {
    let ran = run(&["report", "examples/pair-8.log", "--json"]);
    let (zero, null) = (Value::Number(0), Value::Null);
    let done = [zero.clone(), text("DONE"), zero, null.clone(), null];
    assert_eq!(head(&object(&ran)), done);
    let pair = &pairs(&["examples/pair-8.log"], "")[0];
    let number = Value::Number;
    has(
        pair,
        &[
            ("pair", text("Kiln Lane, pair 8")),
            ("log", text("examples/pair-8.log")),
            ("points", Value::Null),
            ("symbols", number(12)),
            ("refused", number(3)),
            ("wrong_frames", number(2)),
            ("wrong_bits", number(4)),
            ("first_refused", number(4)),
            ("bits_read", number(45)),
            ("bits_are", text("L a frame")),
            ("wrong_bit_rate", text("8.9e-2")),
            ("strip", text("..w.RRR..w..")),
            ("verdict", text("refused")),
        ],
    );
}

#[test]
fn json_has_the_refusals_and_the_table_set() {
    let pair = &pairs(&["examples/pair-8.log"], "")[0];
    let number = Value::Number;
    let Value::List(refusals) = &pair["refusals"] else {
        panic!("no list")
    };
    let Value::Object(monitor) = &refusals[0] else {
        panic!("no object")
    };
    let name = ("name", text("MONITOR"));
    has(
        monitor,
        &[("number", number(14)), name, ("symbols", number(2))],
    );
    let Value::Object(tables) = &pair["table_set"] else {
        panic!("no object")
    };
    has(tables, &[("size", number(5)), ("monitored", number(1))]);
}

#[test]
fn json_of_other_pairs() {
    let both = pairs(&["examples/pair-9.log", "-"], "15 14\n");
    has(
        &both[0],
        &[
            ("sent", text("examples/bench-a-stream.hex")),
            ("points", text("examples/bench-a-stream.csv")),
            ("register_before", Value::Number(8_388_607)),
            ("register_assumed", Value::Flag(false)),
        ],
    );
    has(
        &both[1],
        &[
            ("table_set", Value::Null),
            ("first_refused", Value::Null),
            ("bits_are", text("8 a byte")),
            ("verdict", text("wrong bits")),
        ],
    );
    let words = [("", "nothing"), ("15 15\n", "clean")];
    for (log, verdict) in words {
        has(&pairs(&["-"], log)[0], &[("verdict", text(verdict))]);
    }
    has(&pairs(&["-"], "")[0], &[("wrong_bit_rate", Value::Null)]);
    let set = "tables: examples/cannot-tell.txt\n15 15\n";
    let unseen = [("turned_clip_cannot_show", Value::Flag(true))];
    has(&pairs(&["-"], set)[0], &unseen);
}

/// A sheet lists 18 rows, JSON every number.
#[test]
fn json_has_every_number() {
    let log: String = (1..60)
        .map(|number| format!("00 refused {number}\n"))
        .collect();
    let Value::List(refusals) = &pairs(&["-"], &log)[0]["refusals"] else {
        panic!("no list")
    };
    assert_eq!(refusals.len(), 59);
    let text = run_with(log.as_bytes(), &["report", "-"]).out;
    let rows: Vec<&str> = text
        .lines()
        .filter(|line| line.starts_with("refused: "))
        .collect();
    assert_eq!(rows.len(), 18);
    assert_eq!(
        rows[17],
        "refused: 42 symbols with 42 other numbers: not listed here"
    );
    for (number, name) in clevisroot_sys::refusals::ALL.iter().skip(1) {
        let row = format!("refused: 1 symbol with {number} {name}: ");
        assert!(rows.iter().any(|line| line.starts_with(&row)), "{row}");
    }
}

#[test]
fn csv_is_a_row_a_pair() {
    let ran = run(&[
        "report",
        "examples/pair-7.log",
        "examples/pair-8.log",
        "--csv",
    ]);
    assert_eq!((ran.status, ran.err.as_str()), (0, ""));
    let turned =
        "\"Exact reading with the writer's register refuses a symbol that comes as it was \
                  written, but turned (a clip the wrong way round), because 1 tone is monitored.\"";
    assert_eq!(
        ran.out,
        format!(
            "pair,symbols,refused,wrong frames,wrong bits,bits read,bits are,wrong-bit rate,first refused,\
             refusals,table set,verdict,turned clip,remarks\n\
             \"Kiln Lane, pair 7\",8,0,0,0,40,L a frame,0,,,examples/bench-a.txt,Clean in these 8 \
             symbols: each was read as it was sent.,{turned},\n\
             \"Kiln Lane, pair 8\",12,3,2,4,45,L a frame,8.9e-2,4,2 with 14 MONITOR; 1 with 15 TRELLIS,\
             examples/bench-a.txt,\"3 of 12 symbols were refused, the first of them symbol 4 with 15 \
             TRELLIS; of the other 9, 2 were read wrong, by 4 bits in all.\",{turned},\n"
        )
    );
    let row = run_with(b"15 14\n", &["report", "-", "--csv"]);
    assert!(row.line(1).contains(",8,8 a byte,1.2e-1,"), "{}", row.out);
}

#[test]
fn csv_quotes_what_it_must() {
    for (name, cell) in [
        ("plain name", "plain name"),
        ("a, b", "\"a, b\""),
        ("the \"old\" pair", "\"the \"\"old\"\" pair\""),
        ("\"", "\"\"\"\""),
        ("semi;colon", "semi;colon"),
    ] {
        let log = format!("pair: {name}\n15 15\n");
        let ran = run_with(log.as_bytes(), &["report", "-", "--csv"]);
        let row = ran.line(1);
        assert!(row.starts_with(&format!("{cell},1,0,")), "{row}");
    }
}

/// The page is written beside it, and nothing but rows is printed.
#[test]
fn csv_and_a_page() {
    let page = crate::run::path("csv.html");
    let page = page.to_str().unwrap();
    let words = ["report", "examples/pair-7.log", "--csv", "--html", page];
    let ran = run(&words);
    assert_eq!((ran.status, ran.out.lines().count()), (0, 2));
    assert!(std::fs::read_to_string(page).unwrap().contains("pair 7"));
    let words = ["report", "examples/pair-7.log", "--json", "--html", page];
    let notes = Value::List(vec![text(&format!("page written to {page}"))]);
    assert_eq!(object(&run(&words))["notes"], notes);
}
