//! `report`: the figures of logs, and what is said of them.

use crate::run::{file, numbers, run, run_with, tables, Ran};
use std::fmt::Write;

const A: &str = "tables: examples/bench-a.txt\n";

/// The report of a log that standard input has.
pub fn of(log: &str) -> Ran {
    let ran = run_with(log.as_bytes(), &["report", "-"]);
    assert_eq!((ran.status, ran.err.as_str()), (0, ""), "{}", ran.out);
    ran
}

#[test]
fn the_report_of_the_clean_example() {
    let ran = run(&["report", "examples/pair-7.log"]);
    assert_eq!((ran.status, ran.err.as_str()), (0, ""));
    assert_eq!(
        ran.out,
        "pair               symbols  refused  wrong frames  wrong bits  rate  first refused\n\
         Kiln Lane, pair 7        8        0             0           0     0           none\n\
         \n\
         Kiln Lane, pair 7: log examples/pair-7.log\n\
         tables examples/bench-a.txt: coded, G = 8, NSC = 6: 5 with data, 1 monitored, 0 silent; \
         L = 5 bits in 1 byte\n\
         wrong bits: 0 of 40 bits (5 a frame), rate 0\n\
         Clean in these 8 symbols: each was read as it was sent.\n\
         Exact reading with the writer's register refuses a symbol that comes as it was \
         written, but turned (a clip the wrong way round), because 1 tone is monitored.\n"
    );
}

#[test]
fn several_pairs_in_one_report() {
    let logs = [
        "examples/pair-8.log",
        "examples/pair-7.log",
        "examples/pair-9.log",
    ];
    let ran = run(&[&["report"], &logs[..]].concat());
    assert_eq!(ran.status, 0, "{}", ran.err);
    let row = |line: usize| {
        ran.line(line)
            .split_whitespace()
            .collect::<Vec<_>>()
            .join(" ")
    };
    assert_eq!(row(1), "Kiln Lane, pair 8 12 3 2 4 8.9e-2 4");
    assert_eq!(row(2), "Kiln Lane, pair 7 8 0 0 0 0 none");
    assert_eq!(row(3), "Kiln Lane, pair 9 3 1 0 0 0 1");
    for number in ["7", "8", "9"] {
        let section = format!("\nKiln Lane, pair {number}: log examples/pair-{number}.log");
        assert!(ran.out.contains(&section), "{}", ran.out);
    }
}

/// Symbols, and the verdict on them.
const VERDICTS: [(&str, &str); 13] = [
    ("", "No symbols were given, so nothing can be said of this pair."),
    ("15 15\n", "Clean in this one symbol: it was read as it was sent."),
    ("15 15\n00 00\n", "Clean in these 2 symbols: each was read as it was sent."),
    ("15 14\n", "The one symbol was read wrong, by 1 bit."),
    (
        "15 12\n00 00\n",
        "None of the 2 symbols was refused, but 1 was read wrong, by 3 bits.",
    ),
    (
        "15 14\n00 03\n1f 1f\n",
        "None of the 3 symbols was refused, but 2 were read wrong, by 3 bits in all.",
    ),
    (
        "15 refused 14\n",
        "1 of 1 symbol was refused, symbol 0 with 14 MONITOR; none was read.",
    ),
    (
        "15 15\n15 refused 13\n",
        "1 of 2 symbols was refused, symbol 1 with 13 OFFGRID; the other one was read as it was sent.",
    ),
    (
        "15 14\n15 refused 13\n",
        "1 of 2 symbols was refused, symbol 1 with 13 OFFGRID; the other one was read wrong, by 1 bit.",
    ),
    (
        "15 refused 15\n15 refused 13\n",
        "2 of 2 symbols were refused, the first of them symbol 0 with 15 TRELLIS; none was read.",
    ),
    (
        "00 00\n15 refused 15\n15 15\n15 refused 13\n",
        "2 of 4 symbols were refused, the first of them symbol 1 with 15 TRELLIS; the other 2 were \
         read as they were sent.",
    ),
    (
        "00 00\n15 refused 99\n15 14\n",
        "1 of 3 symbols was refused, symbol 1 with 99 UNKNOWN; of the other 2, 1 was read wrong, by 1 \
         bit.",
    ),
    (
        "00 01\n15 refused 14\n15 12\n",
        "1 of 3 symbols was refused, symbol 1 with 14 MONITOR; of the other 2, 2 were read wrong, by \
         4 bits in all.",
    ),
];

#[test]
fn the_verdict_says_what_the_figures_show() {
    for (symbols, verdict) in VERDICTS {
        for head in ["", A] {
            let ran = of(&format!("{head}{symbols}"));
            assert!(ran.out.contains(&format!("\n{verdict}\n")), "{}", ran.out);
        }
    }
}

/// Frames without bits: nothing was compared, so that nothing is clean.
#[test]
fn frames_without_bits_show_nothing() {
    let set = tables("report-no-bits.txt", "uncoded", 2, &[(0, 0, 512)]);
    let started = format!("tables: {set}\nstart: 3\n00 00\n");
    let set = format!("tables: {set}\n- -\n- -\n- -\n");
    let none = "None of the 3 symbols was refused, but their frames have no bits, so nothing was \
                compared.";
    let one = "The one symbol was not refused, but its frame has no bits, so nothing was compared.";
    for (log, verdict, word) in [
        ("- -\n- -\n- -\n", none, "nothing"),
        (&set, none, "nothing"),
        (&started, one, "nothing"),
        ("- -\n", one, "nothing"),
        (
            "- -\n- refused 10\n",
            "1 of 2 symbols was refused, symbol 1 with 10 ROOM; the frame of the other one has no bits, \
             so nothing was compared.",
            "refused",
        ),
        (
            "- -\n- refused 10\n- -\n",
            "1 of 3 symbols was refused, symbol 1 with 10 ROOM; the frames of the other 2 have no bits, \
             so nothing was compared.",
            "refused",
        ),
    ] {
        let ran = of(log);
        assert!(ran.out.contains(&format!("\n{verdict}\n")), "{}", ran.out);
        let json = run_with(log.as_bytes(), &["report", "-", "--json"]).out;
        assert!(json.contains(&format!("\"verdict\": \"{word}\"")), "{json}");
        assert!(!(ran.out + &json).to_lowercase().contains("clean"), "{json}");
    }
}

/// Whatever the form, a pair that is not clean is not called so.
#[test]
fn only_a_clean_pair_is_called_clean() {
    for (symbols, verdict) in VERDICTS {
        for form in ["--json", "--csv"] {
            let ran = run_with(symbols.as_bytes(), &["report", "-", form]);
            let called = ran.out.to_lowercase().contains("clean");
            assert_eq!(called, verdict.starts_with("Clean"), "{}", ran.out);
        }
        let called = of(symbols).out.to_lowercase().contains("clean");
        assert_eq!(called, verdict.starts_with("Clean"), "{symbols}");
    }
}

#[test]
fn the_rate_is_of_the_bits_that_were_read() {
    for (log, words) in [
        (
            "tables: examples/bench-a.txt\n15 14\n15 15\n15 refused 14\n",
            "1 of 10 bits (5 a frame), rate 1.0e-1",
        ),
        (
            "15 14\n15 15\n15 refused 14\n",
            "1 of 16 bits (8 a byte, L is not known), rate about 6.2e-2",
        ),
        (
            "001122334455667788 001122334455667788\n",
            "0 of 72 bits (8 a byte, L is not known), rate 0",
        ),
        ("15 refused 14\n", "none, for no bit was read"),
        ("- -\n- refused 10\n", "none, for no bit was read"),
        ("", "none, for no bit was read"),
    ] {
        let ran = of(log);
        assert!(
            ran.out.contains(&format!("\nwrong bits: {words}\n")),
            "{}",
            ran.out
        );
    }
    let rate = of("15 refused 14\n");
    assert!(
        rate.line(1).ends_with("none              0"),
        "{}",
        rate.line(1)
    );
}

/// Without a table set a frame may have fewer bits than its bytes, and the rate is told as about.
#[test]
fn the_rate_of_unknown_l_is_marked() {
    let symbols = format!("15 05\n00 07\n{}", "1f 1f\n".repeat(7));
    let row = |log: &str| {
        let row = of(log).line(1).to_string();
        row.split_whitespace().nth(6).unwrap().to_string()
    };
    assert_eq!(row(&symbols), "~5.6e-2");
    assert_eq!(row(&format!("{A}{symbols}")), "8.9e-2");
    assert_eq!(row("15 15\n"), "0");
    let words = "wrong bits: 4 of 72 bits (8 a byte, L is not known), rate about 5.6e-2";
    assert!(of(&symbols).out.contains(words), "{}", of(&symbols).out);
}

#[test]
fn a_small_rate_is_told_with_its_power_of_ten() {
    let log = format!("{0}00 {0}01\n", "00".repeat(1249));
    let words = "1 of 10000 bits (8 a byte, L is not known), rate about 1.0e-4";
    assert!(of(&log).out.contains(words), "{}", of(&log).out);
}

/// Every number that calls give has its meaning, and no two the same.
#[test]
fn every_refusal_has_its_meaning() {
    let mut meanings = Vec::new();
    for (number, name) in clevisroot_sys::refusals::ALL.iter().skip(1) {
        let ran = of(&format!(
            "15 refused {number}\n15 refused {number} {name}\n"
        ));
        let start = format!("refused: 2 symbols with {number} {name}: ");
        let line = ran
            .out
            .lines()
            .find_map(|line| line.strip_prefix(start.as_str()));
        let meaning = line.unwrap_or_else(|| panic!("{}", ran.out)).to_string();
        assert!(!meaning.contains("no call"), "{number}: {meaning}");
        assert!(!meanings.contains(&meaning), "{number}: {meaning}");
        meanings.push(meaning);
    }
    for number in ["9", "17", "24", "4294967295"] {
        let ran = of(&format!("15 refused {number} UNKNOWN\n"));
        let line = format!("with {number} UNKNOWN: no call of this version gives this number");
        assert!(ran.out.contains(&line), "{}", ran.out);
    }
}

/// The figures of a log that looks random, counted here once more.
#[test]
fn the_figures_are_those_of_the_entries() {
    let mut number = numbers(12);
    for round in 0..20 {
        let (mut log, mut figures) = (String::new(), [0_u64; 4]);
        let mut first = None;
        let symbols = number(300);
        for symbol in 0..symbols {
            let (sent, read) = (number(1 << 16), number(1 << 16));
            let read = if number(2) == 0 { sent } else { read };
            figures[0] += 1;
            if number(5) == 0 {
                let refusal = 1 + number(23);
                writeln!(log, "{sent:04x} refused {refusal}").unwrap();
                figures[1] += 1;
                first = first.or(Some(symbol));
            } else {
                writeln!(log, "{sent:04x} {read:04x}").unwrap();
                figures[2] += u64::from(sent != read);
                figures[3] += u64::from((sent ^ read).count_ones());
            }
        }
        let name = format!("figures-{round}");
        let log = file(&format!("{name}.log"), log);
        let ran = run(&["report", &log]);
        let row: Vec<&str> = ran.line(1).split_whitespace().collect();
        let figures = figures.map(|figure| figure.to_string());
        assert_eq!(row[..5], [&[name][..], &figures].concat()[..]);
        let first = first.map_or("none".to_string(), |first| first.to_string());
        assert_eq!(row[6], first);
    }
}
