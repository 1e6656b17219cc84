//! The files in `examples/`, and the second implementation.

use crate::run::{root, run, run_with};
use reference::forms::{Mode, Tables};
use reference::operations::encode;
use std::fs;

/// The rule that examples/vdsl2-4096.txt states, for a tone in t: bits and gain.
fn vdsl2_tone(i: u32) -> (u32, u32) {
    let silent = [420..=464, 812..=869, 1623..=1670, 3246..=3328];
    let gain = 488 + 8 * (i % 7);
    match i {
        _ if silent.iter().any(|band| band.contains(&i)) => (0, 0),
        _ if i.is_multiple_of(64) => (0, gain),
        _ => (15 - 2 * i.isqrt() / 9, gain),
    }
}

#[test]
fn the_large_example_follows_its_rule() {
    let text = fs::read_to_string(root().join("examples/vdsl2-4096.txt")).unwrap();
    let lines = text
        .lines()
        .filter(|line| !line.starts_with('#') && !line.is_empty());
    let mut expected = vec!["mode coded".to_string(), "carriers 4096".to_string()];
    for i in (33..=869).chain(1206..=1971).chain(2783..=4095) {
        let (bits, gain) = vdsl2_tone(i);
        expected.push(format!("{i} {bits} {gain}"));
    }
    assert_eq!(lines.collect::<Vec<_>>(), expected);
}

#[test]
fn the_second_implementation_gives_the_same_points() {
    let mut tables = Tables {
        mode: Mode::Coded,
        bits: vec![0; 4096],
        gains: vec![0; 4096],
        tones: Vec::new(),
    };
    for i in (33..=869).chain(1206..=1971).chain(2783..=4095) {
        let (bits, gain) = vdsl2_tone(i);
        tables.bits[i as usize] = bits as u8;
        tables.gains[i as usize] = gain as u16;
        tables.tones.push(i as u16);
    }
    let nsc = tables.tones.len();
    // L is 14576, which fills its bytes.
    let frame: Vec<u8> = (0..1822u32)
        .map(|byte| (byte * 151 + byte / 7) as u8)
        .collect();
    let answer = encode(&tables, &frame, 4711, nsc, nsc);
    let hex: String = frame.iter().map(|byte| format!("{byte:02x} ")).collect();
    let words = [
        "encode",
        "examples/vdsl2-4096.txt",
        "-",
        "--register",
        "4711",
    ];
    let ran = run_with(hex.as_bytes(), &words);
    let points = ran
        .out
        .lines()
        .skip(2)
        .map(|line| line.split('#').next().unwrap().trim());
    let expected = answer.contents.expect("accepted");
    let expected: Vec<String> = expected.iter().map(|(x, y)| format!("{x},{y}")).collect();
    assert_eq!(points.collect::<Vec<_>>(), expected);
    let register = format!("register after {}", answer.register);
    assert!(ran.line(0).ends_with(&register), "{}", ran.line(0));
}

#[test]
fn the_large_example_is_read_back() {
    let hex = "a5".repeat(1822);
    let points = run_with(hex.as_bytes(), &["encode", "examples/vdsl2-4096.txt", "-"]);
    let words = ["read", "examples/vdsl2-4096.txt", "-"];
    let frame = run_with(points.out.as_bytes(), &words);
    assert_eq!(frame.out.lines().skip(1).collect::<String>(), hex);
}

#[test]
fn the_examples_have_the_sizes_they_say() {
    for (set, size, turned) in [
        (
            "bench-a",
            "L = 5 bits",
            "shows if the register is known, because 1 tone is monitored",
        ),
        (
            "five-twos",
            "L = 3 bits",
            "shows whatever the register, because N = 5 is odd",
        ),
        (
            "cannot-tell",
            "L = 5 bits",
            "does not show, because no tone is monitored and N = 4 is even",
        ),
        (
            "vdsl2-4096",
            "L = 14576 bits",
            "shows whatever the register, because N = 2579 is odd",
        ),
    ] {
        let ran = run(&["check", &format!("examples/{set}.txt")]);
        assert!(
            ran.status == 0 && ran.line(1).starts_with(size),
            "{}",
            ran.out
        );
        assert_eq!(ran.line(4), format!("a turned clip {turned}"));
    }
}
