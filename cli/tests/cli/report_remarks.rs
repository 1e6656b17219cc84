//! What a report says beside its verdict: on a turned clip, on the register, and on the table set.

use crate::report::of;
use crate::run::{file, frames, path, run, run_with, symbols, tables};
use std::fs;

/// What is said of a turned clip, and whether it is a NOTE.
fn last(log: &str) -> String {
    let ran = of(log);
    let last = ran.out.lines().last().unwrap().to_string();
    assert_eq!(ran.out.contains("NOTE"), last.starts_with("NOTE: "));
    last
}

/// An uncoded set of two tones.
fn uncoded(name: &str, bits: usize) -> String {
    tables(name, "uncoded", 2, &[(0, 3, 512), (1, bits, 512)])
}

#[test]
fn what_refuses_a_turned_symbol() {
    let refuses =
        "refuses a symbol that comes as it was written, but turned (a clip the wrong way \
                   round), because";
    let known = format!("Exact reading with the writer's register {refuses}");
    let watched = uncoded("report-watched.txt", 0);
    for (set, words) in [
        (
            "examples/five-twos.txt",
            format!("Exact reading {refuses} N = 5 is odd."),
        ),
        (
            "examples/bench-a.txt",
            format!("{known} 1 tone is monitored."),
        ),
        (
            "examples/twelve-monitored.txt",
            format!("{known} 12 tones are monitored."),
        ),
        (
            &watched,
            format!("{known} 1 tone is monitored; uncoded, this is not proved."),
        ),
    ] {
        for symbol in ["00 00", "00 01", "00 refused 13"] {
            assert_eq!(last(&format!("tables: {set}\n{symbol}\n")), words);
        }
    }
}

#[test]
fn what_does_not_refuse_a_turned_symbol() {
    let note = "NOTE: This table set cannot show by a refusal that a clip is the wrong way round, \
                because no tone is monitored";
    let plain = uncoded("report-uncoded.txt", 2);
    for (set, words) in [
        (
            "examples/cannot-tell.txt",
            " and N = 4 is even: a symbol that comes as it was written, but turned, is read as another \
             frame, so only wrong bits show it.",
        ),
        (
            &plain,
            "; uncoded, nothing is promised of a turned symbol.",
        ),
    ] {
        for symbol in ["00 00", "00 01", "00 refused 13"] {
            let log = format!("tables: {set}\n{symbol}\n");
            assert_eq!(last(&log), format!("{note}{words}"));
        }
    }
    let unknown =
        "The log names no table set, so it is not known whether a symbol would be refused \
                   if a clip is the wrong way round.";
    assert_eq!(last("00 00\n"), unknown);
}

/// The remark on refusals that the table set cannot give, in the text, in JSON, in a row and on the
/// sheet, or that there is none.
fn remarked(log: &str, remark: Option<&str>) {
    let page = path("remarked.html");
    let page = page.to_str().unwrap();
    let text = run_with(log.as_bytes(), &["report", "-", "--html", page]).out;
    let json = run_with(log.as_bytes(), &["report", "-", "--json"]).out;
    let rows = run_with(log.as_bytes(), &["report", "-", "--csv"]).out;
    let sheet = fs::read_to_string(page).unwrap();
    match remark {
        Some(remark) => {
            assert!(text.contains(&format!("\n{remark}\n")), "{text}");
            assert!(json.contains(&format!("\"remarks\": [\"{remark}\"]")));
            assert!(rows.contains(&remark[..20]), "{rows}");
            assert!(sheet.contains(&format!("<p>{remark}</p>")), "{sheet}");
        }
        None => {
            for form in [text, rows, sheet] {
                assert!(!form.contains("cannot give"), "{form}");
            }
            assert!(json.contains("\"remarks\": []"), "{json}");
        }
    }
}

#[test]
fn refusals_that_the_table_set_cannot_give() {
    let cannot = "which this table set cannot give: it may not be the one that was used.";
    let plain = uncoded("report-plain.txt", 2);
    for (set, number, remark) in [
        ("examples/cannot-tell.txt", "14", Some("14 MONITOR")),
        ("examples/cannot-tell.txt", "15", None),
        ("examples/bench-a.txt", "1", Some("1 SIZE")),
        ("examples/bench-a.txt", "8", Some("8 FEW")),
        ("examples/bench-a.txt", "10", None),
        ("examples/bench-a.txt", "14", None),
        ("examples/bench-a.txt", "99", None),
        (&plain, "15", Some("15 TRELLIS")),
        (&plain, "13", None),
    ] {
        let log = format!("tables: {set}\n00 refused {number}\n");
        let one = remark.map(|title| format!("1 symbol was refused with {title}, {cannot}"));
        remarked(&log, one.as_deref());
        let many = remark.map(|title| format!("9 symbols were refused with {title}, {cannot}"));
        let symbols = format!("00 refused {number}\n").repeat(9);
        remarked(&format!("tables: {set}\n{symbols}"), many.as_deref());
        remarked(&symbols, None);
    }
    let log = "tables: examples/cannot-tell.txt\n00 refused 14\n00 refused 15\n00 refused 2\n00 \
               refused 7\n00 00\n00 refused 14\n";
    let titles = "4 symbols were refused with 2 TONE, 7 ODD or 14 MONITOR";
    remarked(log, Some(&format!("{titles}, {cannot}")));
}

/// A register that nobody gave may be the cause of what monitored tones are refused for.
#[test]
fn an_assumed_register_is_told() {
    let sent = file("assumed.hex", frames(8).join("\n\n"));
    let points = file("assumed.csv", symbols(8, "4711").join("\n"));
    let page = path("assumed.html");
    let page = page.to_str().unwrap();
    let set = "examples/bench-a.txt";
    let words = [
        "report", "--tables", set, "--sent", &sent, "--points", &points, "--html", page,
    ];
    let reset = "8388607, its value at reset, for none was given";
    let remark = "No register was given: with another one than the writer's, monitored tones are \
                  refused with 14 MONITOR, so the register may be the cause.";
    let text = run(&words).out;
    let before = "register 8388607 before the first, its value at reset, for none was given\n";
    assert!(text.contains(before), "{text}");
    assert!(text.contains(&format!("\n{remark}\n")), "{text}");
    let sheet = fs::read_to_string(page).unwrap();
    assert!(sheet.contains(&format!("<td>{reset}</td>")), "{sheet}");
    assert!(sheet.contains(&format!("<p>{remark}</p>")), "{sheet}");
    let json = run(&[&words[..], &["--json"]].concat()).out;
    assert!(json.contains("\"register_assumed\": true"), "{json}");
    assert!(json.contains(&format!("\"remarks\": [\"{remark}\"]")));
    let rows = run(&[&words[..], &["--csv"]].concat()).out;
    assert!(rows.contains(&format!(",\"{remark}\"\n")), "{rows}");
    // One that was given is not in doubt, even if it is the value at reset.
    let given = [&words[..], &["--register", "0x7fffff"]].concat();
    let text = run(&given).out;
    assert!(text.contains("with 14 MONITOR: "), "{text}");
    assert!(text.contains("register 8388607 before the first\n"));
    assert!(!text.contains("No register was given"), "{text}");
    let json = run(&[&given[..], &["--json"]].concat()).out;
    assert!(json.contains("\"register_assumed\": false"), "{json}");
}

/// The same of a log, and no remark where no monitored tone disagrees.
#[test]
fn an_assumed_register_of_a_log() {
    let head = "tables: examples/bench-a.txt\nsent: examples/bench-a.hex\npoints: examples/";
    let json = |log: String| run_with(log.as_bytes(), &["report", "-", "--json"]).out;
    let straight = json(format!("{head}bench-a.csv\n"));
    assert!(straight.contains("\"register_assumed\": true"));
    assert!(straight.contains("\"remarks\": []"), "{straight}");
    let turned = json(format!("{head}bench-a-turned.csv\n"));
    assert!(turned.contains("[\"No register was given: "), "{turned}");
    let given = json(format!("{head}bench-a-turned.csv\nregister: 8388607\n"));
    assert!(given.contains("\"register_assumed\": false"));
    assert!(given.contains("\"remarks\": []"), "{given}");
    let none = json("15 refused 14\n".to_string());
    assert!(none.contains("\"register_assumed\": null"), "{none}");
    assert!(none.contains("\"remarks\": []"), "{none}");
}
