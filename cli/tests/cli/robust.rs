//! No input makes the tool panic: damaged files, and outputs that are closed or full.

use crate::run::{equal, example, file, path, run_with, tables, tool, Ran};
use std::fs;
use std::io::Read;
use std::process::Stdio;

/// Every status that the tool documents.
fn is_documented(status: i32) -> bool {
    matches!(status, 0..=8 | 10..=16 | 22 | 23 | 32..=34 | 36 | 37 | 64..=66)
}

/// Numbers that look random and are the same in each run.
struct Numbers(u64);

impl Numbers {
    fn below(&mut self, limit: usize) -> usize {
        self.0 ^= self.0 << 13;
        self.0 ^= self.0 >> 7;
        self.0 ^= self.0 << 17;
        (self.0 % limit as u64) as usize
    }

    /// A copy with a few bytes changed, put in or taken out.
    fn damage(&mut self, bytes: &[u8]) -> Vec<u8> {
        const BYTES: &[u8] = b"0123456789 -#,\n\r\txfmo.\xff\0";
        let mut bytes = bytes.to_vec();
        for _ in 0..1 + self.below(4) {
            let at = self.below(bytes.len());
            let byte = BYTES[self.below(BYTES.len())];
            match self.below(3) {
                0 => bytes[at] = byte,
                1 => bytes.insert(at, byte),
                _ if bytes.len() > 1 => drop(bytes.remove(at)),
                _ => {}
            }
        }
        bytes
    }
}

#[test]
fn damaged_files() {
    let mut numbers = Numbers(0x9e37_79b9_7f4a_7c15);
    let (set, points, frame) = (
        example("bench-a.txt").into_bytes(),
        example("bench-a.csv").into_bytes(),
        b"15".to_vec(),
    );
    let mut statuses = [0; 256];
    for _ in 0..150 {
        let damaged = file("damaged.txt", numbers.damage(&set));
        let svg = path("damaged.svg");
        let svg = svg.to_str().unwrap();
        let (points, frame) = (numbers.damage(&points), numbers.damage(&frame));
        for ran in [
            run_with(b"15", &["encode", &damaged, "-", "--svg", svg]),
            run_with(&frame, &["encode", "examples/bench-a.txt", "-"]),
            run_with(
                &points,
                &["read", "examples/bench-a.txt", "-", "--svg", svg],
            ),
            run_with(&points, &["turn", &damaged, "-", "--json"]),
            run_with(&points, &["nearest", &damaged, "-", "--svg", svg]),
            run_with(&points, &["clip", &damaged, "-", "--register", "1"]),
        ] {
            assert!(is_documented(ran.status), "{}{}", ran.out, ran.err);
            statuses[ran.status as usize] += 1;
        }
    }
    let kinds = statuses.iter().filter(|&&count| count > 0).count();
    assert!(kinds > 8, "the damage is too tame: {kinds} kinds of answer");
}

#[test]
fn noise() {
    let mut numbers = Numbers(0x1234_5678_9abc_def1);
    for length in [1, 10, 100, 1000, 10_000] {
        let bytes: Vec<u8> = (0..length).map(|_| numbers.below(256) as u8).collect();
        for words in [
            vec!["check", "-"],
            vec!["order", "-"],
            vec!["encode", "examples/bench-a.txt", "-"],
            vec!["read", "examples/bench-a.txt", "-"],
            vec!["nearest", "examples/bench-a.txt", "-"],
            vec!["clip", "examples/bench-a.txt", "-"],
        ] {
            let ran = run_with(&bytes, &words);
            assert!(matches!(ran.status, 10 | 11 | 65), "{}{}", ran.out, ran.err);
        }
    }
}

#[test]
fn a_reader_that_goes_away() {
    let set = tables("away.txt", "uncoded", 4096, &equal(4096, 8));
    let frame = file("away.hex", "00".repeat(4096));
    let mut command = tool();
    command.args(["encode", &set, &frame]);
    command.stdout(Stdio::piped()).stderr(Stdio::piped());
    let mut child = command.spawn().unwrap();
    // More is printed than a pipe holds, so that the rest meets a closed pipe.
    let mut start = [0; 10];
    child.stdout.take().unwrap().read_exact(&mut start).unwrap();
    let ran = Ran::of(&child.wait_with_output().unwrap());
    assert_eq!((ran.status, ran.err.as_str()), (0, ""));
}

#[cfg(target_os = "linux")]
#[test]
fn an_output_that_is_full() {
    let full = || {
        Stdio::from(
            fs::OpenOptions::new()
                .write(true)
                .open("/dev/full")
                .unwrap(),
        )
    };
    for words in [vec!["--help"], vec!["map", "4", "9"]] {
        let ran = Ran::of(&tool().args(&words).stdout(full()).output().unwrap());
        assert_eq!(ran.status, 66);
        assert!(ran.err.contains("standard output: "));
    }
    let ran = Ran::of(&tool().arg("no").stderr(full()).output().unwrap());
    assert_eq!(ran.status, 64);
}
