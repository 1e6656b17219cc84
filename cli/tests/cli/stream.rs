//! Files of many symbols: numbered, with the register carried on, refusals passed, totals told.

use crate::json::{numbers, object, text, Value};
use crate::run::{equal, file, frames, path, root, run, run_with, symbols, tables, Ran};
use std::fs;
use std::process::{Command, Stdio};

const A: &str = "examples/bench-a.txt";

#[test]
fn a_stream_is_its_symbols_one_by_one() {
    let symbols = symbols(20, "8388607");
    let mut register = "8388607".to_string();
    for (frame, symbol) in frames(20).iter().zip(&symbols) {
        let words = ["encode", A, "-", "--register", &register];
        let ran = run_with(frame.as_bytes(), &words);
        let points = ran.out.lines().skip(2);
        let bare = points.map(|line| line.split('#').next().unwrap().trim().to_string() + "\n");
        assert_eq!(&bare.collect::<String>(), symbol);
        register = ran.line(0).rsplit(' ').next().unwrap().to_string();
    }
    let ran = run_with(symbols.join("\n").as_bytes(), &["read", A, "-"]);
    assert_eq!((ran.status, ran.err.as_str()), (0, ""));
    let read = ran
        .out
        .lines()
        .filter(|line| !line.starts_with('#') && !line.is_empty());
    assert_eq!(read.collect::<Vec<_>>(), frames(20));
    let totals = format!("# 20 symbols: 20 done, 0 refused, register after {register}");
    assert_eq!(ran.out.lines().last(), Some(totals.as_str()));
    assert!(ran.line(0).starts_with("# symbol 0: 0 DONE: "));
}

#[test]
fn an_empty_line_or_a_header_stands_between_symbols() {
    let symbols = symbols(3, "8388607");
    for text in [
        symbols.join("\n"),
        symbols.join("\n \t\n\n"),
        symbols.join("x,y\n"),
        symbols.join("\nX , Y # header\n\n"),
        format!(
            "\n\nx,y\n{}\n\n",
            symbols.join("\n# remark\nx,y\n# remark\n")
        ),
        symbols.join("\r\n"),
    ] {
        let ran = run_with(text.as_bytes(), &["read", A, "-"]);
        let last = ran.out.lines().last().unwrap();
        assert!(last.starts_with("# 3 symbols: 3 done"), "{text:?}: {last}");
    }
    // A comment stands for nothing, so that these are one symbol of 18 points.
    let ran = run_with(symbols.join("# no\n").as_bytes(), &["read", A, "-"]);
    assert_eq!((ran.status, ran.line(0)), (10, "refused: 10 ROOM"));
    assert!(ran.line(2).contains("18 points for 6 tones"));
    // A header with nothing before the next one is a symbol of no points.
    let ran = run_with(
        format!("x,y\nx,y\n{}", symbols[0]).as_bytes(),
        &["read", A, "-"],
    );
    assert_eq!(
        (ran.status, ran.line(0)),
        (10, "# symbol 0: refused: 10 ROOM")
    );
    assert!(ran.out.contains("# symbol 1: 0 DONE: "));
}

#[test]
fn what_is_printed_for_a_stream_can_be_read_back() {
    let text = frames(5).join("\n\n");
    let points = run_with(text.as_bytes(), &["encode", A, "-"]);
    let read = run_with(points.out.as_bytes(), &["read", A, "-"]);
    let again = run_with(read.out.as_bytes(), &["encode", A, "-"]);
    assert_eq!(again.out, points.out);
    let (csv, hex) = (path("stream.csv"), path("stream.hex"));
    let (csv, hex) = (csv.to_str().unwrap(), hex.to_str().unwrap());
    let ran = run_with(text.as_bytes(), &["encode", A, "-", "--out", csv]);
    assert!(ran.line(0).starts_with("symbol 0: 0 DONE: ") && !ran.out.contains("x,y"));
    assert_eq!(
        ran.out.lines().last(),
        Some(format!("result written to {csv}").as_str())
    );
    assert_eq!(run(&["read", A, csv, "--out", hex]).status, 0);
    let written = fs::read_to_string(hex).unwrap();
    let frames_read = written
        .lines()
        .filter(|line| !line.starts_with('#') && !line.is_empty());
    assert_eq!(frames_read.collect::<Vec<_>>(), frames(5));
}

#[test]
fn a_refusal_is_passed_and_counted() {
    let text = "15\n\n20\n\n00\n\n0000\n\n1f\n";
    let ran = run_with(text.as_bytes(), &["encode", A, "-"]);
    assert_eq!(ran.status, 11);
    assert!(ran
        .out
        .contains("# symbol 1: refused: 11 FRAME\n# at place 0: the frame as a whole\n"));
    assert!(ran.out.contains("# symbol 3: refused: 11 FRAME\n"));
    let totals =
        "# 5 symbols: 3 done, 2 refused (11 FRAME 2, first symbol 1), register after 131071";
    assert_eq!(ran.out.lines().last(), Some(totals));
    assert!(ran
        .err
        .contains("clevisroot: symbol 1: refused: 11 FRAME at place 0"));
    // The register is handed back as it was, so that the others are those of a stream of three.
    let three = run_with(b"15\n\n00\n\n1f", &["encode", A, "-"]);
    let points = |ran: &Ran| -> Vec<String> {
        let lines = ran
            .out
            .lines()
            .filter(|line| !line.starts_with('#') && !line.is_empty());
        lines.map(str::to_string).collect()
    };
    assert_eq!(points(&ran), points(&three));
    let stopped = run_with(text.as_bytes(), &["encode", A, "-", "--stop"]);
    assert_eq!(stopped.status, 11);
    let totals =
        "# 2 symbols: 1 done, 1 refused (11 FRAME 1, first symbol 1), register after 2097151";
    assert_eq!(stopped.out.lines().last(), Some(totals));
}

#[test]
fn refused_symbols_are_missing_from_the_file_by_number() {
    let csv = path("missing-one.csv");
    let csv = csv.to_str().unwrap();
    let ran = run_with(b"15\n\n20\n\n00", &["encode", A, "-", "--out", csv]);
    assert_eq!(ran.status, 11);
    let written = fs::read_to_string(csv).unwrap();
    let comments: Vec<&str> = written
        .lines()
        .filter(|line| line.starts_with('#'))
        .collect();
    assert_eq!(comments, ["# symbol 0", "# symbol 2"]);
    // Nothing was done, so nothing is written.
    let kept = file("all-refused.csv", "kept");
    let ran = run_with(b"20\n\n20", &["encode", A, "-", "--out", &kept]);
    assert_eq!(ran.status, 11);
    assert_eq!(fs::read_to_string(kept).unwrap(), "kept");
}

#[test]
fn tables_that_are_refused_are_told_once() {
    let set = tables("stream-few.txt", "coded", 8, &[(0, 2, 512)]);
    let ran = run_with(b"00\n\n00\n\n00", &["encode", &set, "-"]);
    assert_eq!((ran.status, ran.line(0)), (8, "refused: 8 FEW"));
    assert_eq!(ran.out.lines().count(), 3);
}

#[test]
fn one_json_object_holds_the_stream() {
    let ran = run_with(b"15\n\n20\n\n00", &["encode", A, "-", "--json"]);
    let stream = object(&ran);
    assert_eq!(stream["command"], text("encode"));
    let Value::List(list) = &stream["symbols"] else {
        panic!("no list")
    };
    let fields: Vec<_> = list
        .iter()
        .map(|symbol| match symbol {
            Value::Object(symbol) => [&symbol["symbol"], &symbol["number"], &symbol["register"]],
            _ => panic!("no object"),
        })
        .collect();
    let expected = [(0, 0, 2_097_151), (1, 11, 2_097_151), (2, 0, 524_287)];
    for (symbol, (number, refusal, register)) in fields.iter().zip(expected) {
        let expected = [number, refusal, register].map(Value::Number);
        assert_eq!(symbol.map(Value::clone), expected);
    }
    let Value::Object(totals) = &stream["totals"] else {
        panic!("no object")
    };
    assert_eq!(
        ["symbols", "done", "refused", "first_not_done", "register"].map(|key| totals[key].clone()),
        [3, 2, 1, 1, 524_287].map(Value::Number)
    );
    let Value::Object(first) = &list[0] else {
        panic!("no object")
    };
    assert_eq!(first["x"], numbers(&[-1, -1, -3, -1, 1, 1]));
}

#[test]
fn a_fault_in_the_middle_ends_the_stream() {
    let ran = run_with(b"15\n\n0g\n\n00", &["encode", A, "-"]);
    assert_eq!(ran.status, 65);
    assert!(
        ran.err.contains("standard input:3: `0g` is not hex"),
        "{}",
        ran.err
    );
    assert!(ran.out.starts_with("# symbol 0: 0 DONE") && !ran.out.contains("symbol 1"));
    let ran = run_with(b"15\n\n0g\n\n00", &["encode", A, "-", "--json"]);
    let stream = object(&ran);
    let Value::Object(totals) = &stream["totals"] else {
        panic!("no object")
    };
    assert!(matches!(&totals["fault"], Value::Text(fault) if fault.contains("is not hex")));
}

/// The same limit on the memory for a short stream and a long one.
#[cfg(target_os = "linux")]
#[test]
fn a_long_stream_takes_no_more_memory() {
    let set = tables("memory.txt", "uncoded", 4096, &equal(4096, 8));
    let frames = file(
        "memory.hex",
        format!("{}\n\n", "a5".repeat(4096)).repeat(400),
    );
    let script = "ulimit -v 48000; \"$TOOL\" encode \"$1\" \"$2\" | \"$TOOL\" turn \"$1\" -";
    let mut command = Command::new("sh");
    command
        .args(["-c", script, "sh", &set, &frames])
        .stdin(Stdio::null());
    command
        .env("TOOL", env!("CARGO_BIN_EXE_clevisroot"))
        .current_dir(root());
    let ran = Ran::of(&command.output().unwrap());
    // Nothing tells in an uncoded set without a monitored tone.
    assert_eq!(ran.status, 33, "{}", ran.err);
    let totals = "400 symbols: 400 cannot tell; in all: cannot tell";
    assert_eq!(ran.out.lines().last(), Some(totals));
}

/// Runs the tool with a terminal as standard error, and hands back what the terminal got.
const TERMINAL: &str = "
import os, pty, subprocess, sys, time
leader, follower = pty.openpty()
tool = subprocess.Popen(sys.argv[2:], stdin=subprocess.PIPE, stdout=subprocess.DEVNULL, stderr=follower)
os.close(follower)
for number in range(4):
    tool.stdin.write(b'15\\n\\n')
    tool.stdin.flush()
    time.sleep(float(sys.argv[1]))
tool.stdin.close()
tool.wait()
said = b''
try:
    while True:
        part = os.read(leader, 1000)
        if not part: break
        said += part
except OSError:
    pass
sys.stdout.buffer.write(said)
";

#[cfg(target_os = "linux")]
#[test]
fn progress_is_for_a_terminal_and_for_long_work() {
    let on_terminal = |pause: &str| {
        let mut python = Command::new("python3");
        python.args(["-c", TERMINAL, pause, env!("CARGO_BIN_EXE_clevisroot")]);
        python
            .args(["encode", A, "-"])
            .current_dir(root())
            .output()
            .ok()
    };
    let Some(long) = on_terminal("0.6") else {
        return;
    };
    let said = String::from_utf8_lossy(&long.stdout).into_owned();
    assert!(said.contains(" symbols, 1 s"), "{said:?}");
    assert!(said.ends_with("\r\u{1b}[K"), "{said:?}");
    let short = on_terminal("0.01").unwrap();
    assert_eq!(short.stdout, b"");
}
