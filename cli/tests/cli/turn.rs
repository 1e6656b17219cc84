//! `turn` on the kinds of table sets there are: a monitored tone, none and N odd, none and N even,
//! and uncoded.

use crate::run::{equal, run, run_with, tables, turned, Ran};

const A: &str = "examples/bench-a.txt";
const ODD: &str = "examples/five-twos.txt";
const EVEN: &str = "examples/cannot-tell.txt";

/// The points of a frame as CSV.
fn symbol(set: &str, frame: &str) -> String {
    let ran = run_with(frame.as_bytes(), &["encode", set, "-"]);
    assert_eq!(ran.status, 0, "{}", ran.out);
    ran.out
}

/// With the register at reset given.
fn turn(set: &str, points: &str) -> Ran {
    run_with(
        points.as_bytes(),
        &["turn", set, "-", "--register", "8388607"],
    )
}

/// Without a register.
fn turn_assumed(set: &str, points: &str) -> Ran {
    run_with(points.as_bytes(), &["turn", set, "-"])
}

/// One sentence first, and a line for each way that is shown: all four where none is read.
fn told(ran: &Ran, status: i32, word: &str) {
    told_in_lines(ran, status, word, if status == 34 { 5 } else { 3 });
}

/// The sentence begins with this word and is the only one; so many lines in all.
fn told_in_lines(ran: &Ran, status: i32, word: &str, lines: usize) {
    assert_eq!((ran.status, ran.err.as_str()), (status, ""), "{}", ran.out);
    let sentence = ran.line(0);
    assert!(
        sentence.starts_with(&format!("{word}: ")) && sentence.ends_with('.'),
        "{sentence}"
    );
    assert_eq!(sentence.matches('.').count(), 1, "{sentence}");
    assert_eq!(ran.out.lines().count(), lines);
}

#[test]
fn a_monitored_tone_tells() {
    for frame in 0..32 {
        let points = symbol(A, &format!("{frame:02x}"));
        let straight = turn(A, &points);
        told(&straight, 0, "Straight");
        let read = format!("as they came: read, frame {frame:02x} (hex), L = 5 bits in 1 byte");
        assert!(straight.line(1).starts_with(&read), "{}", straight.out);
        let refused = "turned:       refused, 14 MONITOR at place 3 in t', sub-carrier 4";
        assert!(straight.line(2).starts_with(refused), "{}", straight.out);
        let wrong = turn(A, &turned(&points));
        told(&wrong, 32, "Turned");
        assert!(wrong.line(0).contains("swap them"));
        assert!(wrong.line(1).contains("refused, 14 MONITOR"));
        assert!(wrong
            .line(2)
            .contains(&format!("read, frame {frame:02x} (hex)")));
    }
}

#[test]
fn an_odd_count_tells() {
    for frame in 0..8 {
        let points = symbol(ODD, &format!("{frame:02x}"));
        told(&turn(ODD, &points), 0, "Straight");
        let wrong = turn(ODD, &turned(&points));
        told(&wrong, 32, "Turned");
        assert!(wrong.line(1).contains("refused, 15 TRELLIS at pair "));
    }
}

#[test]
fn an_even_count_cannot_tell() {
    for frame in 0..32 {
        let points = symbol(EVEN, &format!("{frame:02x}"));
        for points in [turned(&points), points] {
            let ran = turn(EVEN, &points);
            told(&ran, 33, "Cannot tell");
            assert!(ran.line(0).contains("monitors no tone and N, "));
            assert!(ran.line(0).contains("is even (4)"));
            assert_ne!(ran.line(1)[14..], ran.line(2)[14..]);
        }
    }
}

#[test]
fn uncoded_only_a_monitored_tone_tells() {
    let set = tables("turn-uncoded.txt", "uncoded", 8, &equal(3, 2));
    let ran = turn(&set, "1,1\n-1,1\n1,1");
    told(&ran, 33, "Cannot tell");
    assert!(ran.line(0).contains("is uncoded and monitors no tone"));
    let tones = [equal(3, 2), vec![(5, 0, 512)]].concat();
    let set = tables("turn-monitored.txt", "uncoded", 8, &tones);
    let points = symbol(&set, "2a");
    told(&turn(&set, &points), 0, "Straight");
    told(&turn(&set, &turned(&points)), 32, "Turned");
}

#[test]
fn neither_way_is_read() {
    let ran = turn(A, "1,1\n1,1\n1,1\n2,2\n1,1\n1,1");
    told(&ran, 34, "Neither");
    assert!(ran.line(1).contains("13 OFFGRID") && ran.line(2).contains("13 OFFGRID"));
    // Another register than the one it was written with.
    let points = symbol(A, "00").replace("-1,-1", "1,-1");
    told(&turn(A, &points), 34, "Neither");
    told(&turn(A, &"-99999,-32768\n".repeat(6)), 34, "Neither");
}

#[test]
fn the_examples_are_the_three_kinds() {
    let calls = [
        ([A, "examples/bench-a.csv"], 36),
        ([A, "examples/bench-a-turned.csv"], 36),
        ([ODD, "examples/five-twos-turned.csv"], 32),
        ([EVEN, "examples/cannot-tell.csv"], 33),
    ];
    for ([set, points], status) in calls {
        assert_eq!(run(&["turn", set, points]).status, status);
    }
}

/// Consecutive symbols of bench table A from reset on: register before, points.
fn symbols_of_a(count: usize) -> Vec<(String, String)> {
    let mut register = "8388607".to_string();
    let mut symbols = Vec::new();
    for number in 0..count {
        let frame = format!("{:02x}", number * 7 % 32);
        let ran = run_with(
            frame.as_bytes(),
            &["encode", A, "-", "--register", &register],
        );
        let after = ran.line(0).rsplit(' ').next().unwrap().to_string();
        symbols.push((std::mem::replace(&mut register, after), ran.out));
    }
    symbols
}

#[test]
fn no_verdict_is_wrong_and_sure() {
    let mut perhaps = 0;
    for (register, points) in symbols_of_a(40) {
        for (points, sure) in [(turned(&points), 32), (points, 0)] {
            let ran = turn_assumed(A, &points);
            assert!(matches!(ran.status, 34 | 36), "{}", ran.out);
            perhaps += usize::from(ran.status == 36);
            let words = ["turn", A, "-", "--register", &register];
            assert_eq!(run_with(points.as_bytes(), &words).status, sure);
        }
    }
    // Of the wrong registers' symbols, many look like one of the two.
    assert_eq!(perhaps, 70);
}

#[test]
fn a_perhaps_says_what_it_rests_on() {
    let points = symbol(A, "00");
    for (points, word) in [
        (turned(&points), "Perhaps turned"),
        (points, "Perhaps straight"),
    ] {
        let ran = turn_assumed(A, &points);
        told(&ran, 36, word);
        for words in [
            "register 8388607, which is the value at reset, assumed because none was given",
            "1 monitored tone agrees, as it would with a wrong register one time in 4",
            "--register N",
            "--register find",
        ] {
            assert!(ran.line(0).contains(words), "{}", ran.out);
        }
    }
    let given = turn(A, &symbol(A, "00"));
    told(&given, 0, "Straight");
    let words = "round, if register 8388607, which was given, is the writer's";
    assert!(given.line(0).contains(words), "{}", given.out);
    assert!(given
        .line(0)
        .contains("1 monitored tone agrees, as it would with a wrong register"));
}

#[test]
fn twelve_monitored_tones_agree_with_no_other_register() {
    for (monitored, sure) in [(11, false), (12, true), (40, true)] {
        let spare = (4..4 + monitored).map(|tone| (tone, 0, 512)).collect();
        let name = format!("turn-{monitored}.txt");
        let set = tables(&name, "coded", 64, &[equal(4, 2), spare].concat());
        let points = symbol(&set, "02");
        let straight = turn_assumed(&set, &points);
        let wrong = turn_assumed(&set, &turned(&points));
        if sure {
            told(&straight, 0, "Straight");
            told(&wrong, 32, "Turned");
            assert!(straight
                .line(0)
                .contains("monitored tones agree, as with no other register"));
        } else {
            told(&straight, 36, "Perhaps straight");
            told(&wrong, 36, "Perhaps turned");
            assert!(straight.line(0).contains("one time in 4194304"));
        }
    }
}

#[test]
fn an_odd_count_tells_whatever_the_register() {
    // Five entries and a monitored tone, written with another register than any that is assumed.
    let tones = [equal(5, 2), vec![(7, 0, 512)]].concat();
    let set = tables("turn-odd-monitored.txt", "coded", 8, &tones);
    for register in ["8388607", "1", "2", "3", "4711"] {
        let ran = run_with(b"05", &["encode", &set, "-", "--register", register]);
        let points = ran.out;
        for words in [vec![], vec!["--register", "find"], vec!["--register=77"]] {
            let words = [vec!["turn", &set, "-"], words].concat();
            told(&run_with(points.as_bytes(), &words), 0, "Straight");
            let ran = run_with(turned(&points).as_bytes(), &words);
            told(&ran, 32, "Turned");
            assert!(ran
                .line(0)
                .contains("whatever the register: the trellis code tells"));
        }
    }
}
