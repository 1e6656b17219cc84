//! The manual page and the completions: made from the tables of commands and options, and accepted
//! by the programs they are for, where those are installed.

use crate::run::{run, tool};
use std::io::Write;
use std::process::{Command, Stdio};

const COMMANDS: [&str; 13] = [
    "check",
    "order",
    "encode",
    "read",
    "nearest",
    "turn",
    "clip",
    "report",
    "map",
    "point",
    "figures",
    "man",
    "completions",
];
const OPTIONS: [&str; 14] = [
    "register", "start", "tables", "sent", "points", "pair", "out", "svg", "html", "all", "stop",
    "plain", "csv", "json",
];

/// What a program answers to a text, if it is installed: its status, and all it prints.
fn fed(program: &str, words: &[&str], text: &str) -> Option<(bool, String)> {
    let mut command = Command::new(program);
    command.args(words).stdin(Stdio::piped());
    command.stdout(Stdio::piped()).stderr(Stdio::piped());
    let mut child = command.spawn().ok()?;
    let _ = child.stdin.take()?.write_all(text.as_bytes());
    let output = child.wait_with_output().ok()?;
    let printed = [output.stdout, output.stderr].concat();
    let printed = String::from_utf8_lossy(&printed).into_owned();
    Some((output.status.success(), printed))
}

#[test]
fn the_manual_page_has_every_command_and_option() {
    let page = run(&["man"]);
    assert_eq!((page.status, page.err.as_str()), (0, ""));
    assert!(page.line(0).starts_with(".TH CLEVISROOT 1 "));
    for name in COMMANDS {
        assert!(page.out.contains(&format!("\n.SS {name}\n")), "{name}");
        let about = run(&[name, "--help"]);
        let about = about
            .line(0)
            .split(": ")
            .nth(1)
            .unwrap()
            .replace('-', "\\-");
        assert!(page.out.contains(&about), "{about}");
    }
    for name in OPTIONS {
        assert!(page.out.contains(&format!("\n.B \\-\\-{name}")), "{name}");
    }
    for name in ["NAME", "SYNOPSIS", "FILES", "EXIT STATUS"] {
        assert!(page.out.contains(&format!("\n.SH {name}\n")), "{name}");
    }
    // Its warnings go to standard error.
    let call = "command -v man > /dev/null && man --warnings -E UTF-8 -l - > /dev/null";
    if let Some((true, warnings)) = fed("sh", &["-c", call], &page.out) {
        assert_eq!(warnings, "");
    }
}

#[test]
fn the_completions_have_every_command_and_option() {
    for shell in ["bash", "fish", "zsh"] {
        let script = run(&["completions", shell]);
        assert_eq!((script.status, script.err.as_str()), (0, ""));
        for name in COMMANDS {
            assert!(script.out.contains(name), "{shell}: {name}");
        }
        for name in OPTIONS {
            let (short, long) = (format!("-l {name}"), format!("--{name}"));
            assert!(script.out.contains(&short) || script.out.contains(&long));
        }
        if let Some((accepted, printed)) = fed(shell, &["-n"], &script.out) {
            assert!(accepted, "{shell}: {printed}");
        }
    }
}

/// What bash proposes for the words so far.
fn completed(words: &[&str]) -> Option<Vec<String>> {
    let script = run(&["completions", "bash"]).out;
    let last = words.len() - 1;
    let list: String = words.iter().map(|word| format!("'{word}' ")).collect();
    let call = format!(
        "{script}\nCOMP_WORDS=({list})\nCOMP_CWORD={last}\n_clevisroot\n\
         printf '%s\\n' \"${{COMPREPLY[@]}}\"\n"
    );
    let (_, printed) = fed("bash", &[], &call)?;
    Some(printed.lines().map(str::to_string).collect())
}

#[test]
fn bash_completes() {
    let cases: [(&[&str], &[&str]); 17] = [
        (&["clevisroot", "en"], &["encode"]),
        (&["clevisroot", "--json", "tu"], &["turn"]),
        (&["clevisroot", "encode", "--re"], &["--register"]),
        (&["clevisroot", "turn", "--o"], &[]),
        (&["clevisroot", "read", "--register", "f"], &["find"]),
        (&["clevisroot", "nearest", "--a"], &["--all"]),
        (&["clevisroot", "turn", "--sta"], &["--start"]),
        (&["clevisroot", "read", "--start", "6"], &["6"]),
        (&["clevisroot", "cl"], &["clip"]),
        (&["clevisroot", "clip", "--st"], &["--stop"]),
        (&["clevisroot", "map", "--p"], &["--plain"]),
        (&["clevisroot", "point", "--p"], &["--plain"]),
        (&["clevisroot", "nearest", "--p"], &[]),
        (&["clevisroot", "completions", "z"], &["zsh"]),
        (&["clevisroot", "rep"], &["report"]),
        (&["clevisroot", "report", "--ht"], &["--html"]),
        (
            &[
                "clevisroot",
                "report",
                "--sent",
                "../examples/bench-a-stream.h",
            ],
            &["../examples/bench-a-stream.hex"],
        ),
    ];
    for (words, expected) in cases {
        let Some(found) = completed(words) else {
            return;
        };
        let found: Vec<&str> = found.iter().map(String::as_str).collect();
        let found: Vec<&str> = found.into_iter().filter(|word| !word.is_empty()).collect();
        assert_eq!(found, expected, "{words:?}");
    }
}

#[test]
fn a_page_that_cannot_be_printed_is_told() {
    if let Ok(full) = std::fs::OpenOptions::new().write(true).open("/dev/full") {
        let output = tool().arg("man").stdout(full).output().unwrap();
        assert_eq!(output.status.code(), Some(66));
    }
}
