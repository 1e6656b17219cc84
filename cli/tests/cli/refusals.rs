//! Every refusal that files and arguments can bring about, with its place and its status.

use crate::run::{equal, file, run, run_with, tables, Ran};

const A: &str = "examples/bench-a.txt";

/// The call is refused with this number and name, at this place.
pub fn refused(ran: &Ran, number: i32, name: &str, place: &str, sentence: &str) {
    assert_eq!(ran.status, number, "{}{}", ran.out, ran.err);
    assert_eq!(ran.line(0), format!("refused: {number} {name}"));
    assert!(ran.line(1).starts_with(place), "{}", ran.out);
    assert!(ran.line(2).contains(sentence), "{}", ran.out);
    // What was to give a result tells the reason to the person too: these tests read a pipe.
    if !ran.err.is_empty() {
        let reason = format!("clevisroot: refused: {number} {name} {place}");
        assert!(ran.err.starts_with(&reason), "{}", ran.err);
        assert!(ran.err.contains(sentence), "{}", ran.err);
    }
}

/// The same refusal for each command that takes tables, whatever else it is given.
fn tables_refused(set: &str, number: i32, name: &str, place: &str, sentence: &str) {
    for words in [vec!["check", set], vec!["order", set]] {
        refused(&run(&words), number, name, place, sentence);
    }
    for command in ["encode", "read", "nearest", "turn"] {
        let ran = run_with(b"", &[command, set, "-"]);
        refused(&ran, number, name, place, sentence);
    }
}

#[test]
fn size() {
    let whole = "at place 0: the table set as a whole";
    for (count, carriers) in [("0", 0), ("4097", 4097), ("many", 99_999_999)] {
        let name = format!("size-{count}.txt");
        let set = tables(&name, "coded", carriers, &[(0, 2, 512)]);
        tables_refused(&set, 1, "SIZE", whole, "`carriers` is 1 to 4096");
    }
    let set = tables("size-empty.txt", "coded", 8, &[]);
    tables_refused(&set, 1, "SIZE", whole, "list at least one");
    let set = tables("size-more.txt", "coded", 1, &[(0, 2, 512), (1, 2, 512)]);
    tables_refused(
        &set,
        1,
        "SIZE",
        whole,
        "2 tones are listed, more than 1 sub-carrier.",
    );
}

#[test]
fn tone() {
    for outside in [8, 70_000] {
        let name = format!("tone-{outside}.txt");
        let tones = [(3, 2, 512), (outside, 2, 512), (3, 2, 512)];
        let set = tables(&name, "coded", 8, &tones);
        let place = format!("at place 1 in t, line 4 of {set}");
        tables_refused(&set, 2, "TONE", &place, "not below `carriers`, 8");
    }
}

#[test]
fn twice() {
    let tones = [(3, 2, 512), (1, 99, 512), (3, 1, 0)];
    let set = tables("twice.txt", "coded", 8, &tones);
    let place = format!("at place 2 in t, line 5 of {set}");
    tables_refused(
        &set,
        3,
        "TWICE",
        &place,
        "Sub-carrier 3 is on line 3 already",
    );
}

#[test]
fn bits() {
    for bits in [16, 256, 1_000_000] {
        let name = format!("bits-{bits}.txt");
        let set = tables(&name, "coded", 8, &[(7, bits, 512), (5, bits, 0)]);
        let place = format!("at sub-carrier 5, line 4 of {set}");
        tables_refused(&set, 4, "BITS", &place, "0 to 15 bits");
    }
}

#[test]
fn stray() {
    let text = "mode uncoded\ncarriers 8\n1 0 5000\noutside 6 0 0\noutside 4 0 1\n";
    let set = file("stray.txt", text);
    let place = format!("at sub-carrier 4, line 5 of {set}");
    tables_refused(&set, 5, "STRAY", &place, "not in the tone table");
}

#[test]
fn gain() {
    let set = tables("gain-0.txt", "coded", 8, &[(7, 2, 0), (6, 2, 0)]);
    let place = format!("at sub-carrier 6, line 4 of {set}");
    tables_refused(&set, 6, "GAIN", &place, "bits but gain 0");
    for gain in [4096, 65_536] {
        let name = format!("gain-{gain}.txt");
        let set = tables(&name, "uncoded", 8, &[(7, 0, gain)]);
        let place = format!("at sub-carrier 7, line 3 of {set}");
        tables_refused(&set, 6, "GAIN", &place, "0 to 4095");
    }
}

#[test]
fn odd_and_few() {
    let whole = "at place 0: the table set as a whole";
    let mut tones = equal(5, 2);
    tones[2].1 = 1;
    let set = tables("odd.txt", "coded", 8, &tones);
    tables_refused(&set, 7, "ODD", whole, "number here is 1:");
    let set = tables(
        "few.txt",
        "coded",
        8,
        &[equal(2, 2), vec![(4, 1, 1), (5, 1, 1)]].concat(),
    );
    tables_refused(&set, 8, "FEW", whole, "number here is 3:");
}

#[test]
fn room() {
    for points in [
        "",
        "x,y\n",
        "1,1\n1,1\n1,1\n-1,-1\n1,1\n",
        "1,1\n1,1\n1,1\n-1,-1\n1,1\n1,1\n1,1",
    ] {
        let count = points.lines().filter(|line| *line != "x,y").count();
        for command in ["read", "nearest", "turn"] {
            // SEED applies too, but ROOM is smaller.
            let ran = run_with(points.as_bytes(), &[command, A, "-", "--register=0"]);
            let plural = if count == 1 { "" } else { "s" };
            let sentence = format!("There are {count} point{plural} for 6 tones");
            refused(
                &ran,
                10,
                "ROOM",
                "at place 0: the list of points",
                &sentence,
            );
        }
    }
}

#[test]
fn points_of_several_symbols_without_an_empty_line() {
    let points = "1,1\n1,1\n1,1\n-1,-1\n1,1\n1,1\n".repeat(2);
    let ran = run_with(points.as_bytes(), &["read", A, "-"]);
    let sentence = "There are 12 points for 6 tones: give one point a tone, in t' order, and an \
                    empty line between symbols.";
    refused(&ran, 10, "ROOM", "at place 0: the list", sentence);
}

#[test]
fn frame() {
    let whole = "at place 0: the frame as a whole";
    for (frame, sentence) in [
        ("20", "the upper 3 bits of the last byte"),
        ("", "this frame has 0 bytes."),
        (
            "0000",
            "this frame has 2 bytes: put an empty line between frames.",
        ),
    ] {
        let ran = run_with(frame.as_bytes(), &["encode", A, "-", "--register", "0"]);
        refused(&ran, 11, "FRAME", whole, sentence);
    }
}

#[test]
fn seed() {
    for register in ["0", "8388608", "4294967296", "99999999999999999999"] {
        let words = ["encode", A, "examples/bench-a.hex", "--register", register];
        refused(
            &run(&words),
            12,
            "SEED",
            "at place 0: the register",
            "1 to 8388607",
        );
        for command in ["read", "nearest", "turn"] {
            let words = [command, A, "examples/bench-a.csv", "--register", register];
            refused(
                &run(&words),
                12,
                "SEED",
                "at place 0: the register",
                "1 to 8388607",
            );
        }
    }
}

#[test]
fn offgrid() {
    // Place 3 is monitored and not what the filler bits give, but place 4 is off its grid.
    let ran = run_with(b"1,1\n1,1\n1,1\n1,1\n1,-1\n1,1", &["read", A, "-"]);
    let place = "at place 4 in t', sub-carrier 3, line 5 of standard input";
    refused(
        &ran,
        13,
        "OFFGRID",
        place,
        "(1, -1) is none of the 2 points of a tone with 1 bit:",
    );
    // Values as they were typed, whatever the library's type holds.
    for point in [
        ("99999", "1"),
        ("40000", "-32768"),
        ("-40000", "-32769"),
        ("32768", "+7"),
    ] {
        let (x, y) = point;
        let points = format!("{x},{y}\n1,1\n1,1\n1,1\n1,1\n1,1");
        let ran = run_with(points.as_bytes(), &["read", A, "-"]);
        let place = "at place 0 in t', sub-carrier 7";
        refused(&ran, 13, "OFFGRID", place, "a tone with 4 bits");
        assert!(
            ran.line(2).contains(&format!("({x}, {y}) is none")),
            "{}",
            ran.out
        );
        let ran = run(&["point", "4", x, y]);
        let sentence = format!("({x}, {y}) is none of the 16 points of a tone with 4 bits.");
        refused(&ran, 13, "OFFGRID", "at place 0: the one tone", &sentence);
    }
    let ran = run(&["point", "5", "5", "5"]);
    let place = "at place 0: the one tone";
    refused(&ran, 13, "OFFGRID", place, "none of the 32 points");
}

#[test]
fn offgrid_without_data() {
    let place = "at place 3 in t', sub-carrier 4";
    let ran = run_with(b"1,1\n1,1\n1,1\n3,1\n1,1\n1,1", &["read", A, "-"]);
    refused(&ran, 13, "OFFGRID", place, "a monitored tone");
    let words = ["read", "examples/cannot-tell.txt", "-"];
    let ran = run_with(b"1,1\n1,1\n1,1\n1,1\n1,1\n1,1", &words);
    refused(&ran, 13, "OFFGRID", place, "a silent tone");
}

#[test]
fn monitor() {
    let place = "at place 3 in t', sub-carrier 4, line 5 of standard input";
    let ran = run_with(b"x,y\n3,3\n1,1\n1,1\n1,1\n1,1\n1,1", &["read", A, "-"]);
    refused(&ran, 14, "MONITOR", place, "(1, 1) is not (-1, -1)");
    assert!(ran.line(2).contains("see `turn`"));
    let ran = run_with(b"x,y\n3,3\n1,1\n1,1\n1,-1\n1,1\n1,1", &["read", A, "-"]);
    refused(
        &ran,
        14,
        "MONITOR",
        place,
        "see whether the register is the writer's",
    );
}

#[test]
fn trellis() {
    let ran = run_with(b"3,3\n1,1\n1,1\n-1,-1\n1,1\n1,1", &["read", A, "-"]);
    refused(
        &ran,
        15,
        "TRELLIS",
        "at pair 0: sub-carriers 7, 5",
        "trellis code",
    );
    let ran = run_with(b"1,1\n1,1\n1,1\n-1,-1\n1,1\n-1,-1", &["read", A, "-"]);
    refused(
        &ran,
        15,
        "TRELLIS",
        "at pair 1: sub-carriers 2, 3, 6",
        "trellis code",
    );
    let words = ["read", "examples/five-twos.txt", "-"];
    let ran = run_with(b"1,-1\n1,1\n1,1\n1,1\n1,1", &words);
    refused(
        &ran,
        15,
        "TRELLIS",
        "at pair 0: sub-carrier 0",
        "trellis code",
    );
}

#[test]
fn label() {
    let place = "at place 0: the one tone";
    for bits in ["0", "16", "256", "99999999999999999999"] {
        for words in [vec!["map", bits, "0"], vec!["point", bits, "1", "1"]] {
            refused(&run(&words), 16, "LABEL", place, "1 to 15 bits");
        }
    }
    for label in ["16", "4294967296", "99999999999999999999"] {
        refused(&run(&["map", "4", label]), 16, "LABEL", place, "0 to 15");
    }
}
