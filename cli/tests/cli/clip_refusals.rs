//! What `clip` refuses, by the library's numbers, and calls and tables that it does not take.

use crate::refusals::refused;
use crate::run::{example, file, run, run_with, Ran};

const SET: &str = "examples/clip.txt";

fn clip(set: &str, points: &str, words: &[&str]) -> Ran {
    run_with(points.as_bytes(), &[&["clip", set, "-"], words].concat())
}

const WHOLE: &str = "at place 0: the table set as a whole";

/// Number and name; the tables after their mode; the place; what the sentence says.
const TABLES: [(i32, &str, &str, &str, &str); 8] = [
    (
        1,
        "SIZE",
        "carriers 4097\n0 2 512",
        WHOLE,
        "`carriers` is 1 to 4096",
    ),
    (
        2,
        "TONE",
        "carriers 8\n3 2 512\n8 2 512",
        "at place 1 in t, line 4",
        "not below `carriers`, 8",
    ),
    (
        3,
        "TWICE",
        "carriers 8\n1 2 512\n1 2 512",
        "at place 1 in t, line 4",
        "is on line 3 already",
    ),
    (
        4,
        "BITS",
        "carriers 8\n7 2 512\n5 16 512",
        "at sub-carrier 5, line 4",
        "0 to 15 bits",
    ),
    (
        5,
        "STRAY",
        "carriers 8\n1 0 512\noutside 4 0 1",
        "at sub-carrier 4, line 4",
        "not in the tone table",
    ),
    (
        6,
        "GAIN",
        "carriers 8\n7 0 4096\n6 2 0",
        "at sub-carrier 6, line 4",
        "bits but gain 0",
    ),
    (
        7,
        "ODD",
        "carriers 8\n0 2 512\n1 1 512\n2 0 512",
        WHOLE,
        "number here is 1:",
    ),
    (
        8,
        "FEW",
        "carriers 8\n0 2 512\n1 0 512",
        WHOLE,
        "at least 4 entries",
    ),
];

/// Before the count of points and the register, which are wrong here too.
#[test]
fn the_tables() {
    for (number, name, text, place, sentence) in TABLES {
        let set = file("clip-tables.txt", format!("mode coded\n{text}\n"));
        let ran = clip(&set, "1,1", &["--register", "0"]);
        refused(&ran, number, name, place, sentence);
        assert_eq!((ran.out.lines().count(), ran.err.as_str()), (3, ""));
    }
}

/// The count of points before the register.
#[test]
fn points_and_register() {
    let (points, even) = (example("clip-straight.csv"), example("cannot-tell.csv"));
    let (short, list) = (
        "1,1\n".repeat(5),
        "at place 0: the list of points as a whole",
    );
    for (set, points, register, number, name, place) in [
        (SET, "1,1", "0", 10, "ROOM", list),
        (SET, "", "4711", 10, "ROOM", list),
        ("examples/cannot-tell.txt", &short, "0", 10, "ROOM", list),
        (SET, &points, "0", 12, "SEED", ""),
        (SET, &points, "8388608", 12, "SEED", ""),
        ("examples/cannot-tell.txt", &even, "0", 12, "SEED", ""),
    ] {
        let ran = clip(set, points, &["--register", register]);
        refused(&ran, number, name, place, "");
        assert_eq!((ran.out.lines().count(), ran.err.as_str()), (3, ""));
    }
}

/// Each tone needs a point, though one alone counts.
#[test]
fn too_few_points() {
    let others =
        "; only the one at place 3 is looked at, so any point, 0,0 for instance, will do for \
                  each of the others.";
    let words = "There is 1 point for 8 tones: give one point a tone, in t' order";
    assert_eq!(clip(SET, "1,1", &[]).line(2), format!("{words}{others}"));
    let zeros = "0,0\n".repeat(3) + "1,-1\n" + &"0,0\n".repeat(4);
    assert_eq!(clip(SET, &zeros, &["--register", "4711"]).status, 0);
    // Nothing is looked at where no tone is monitored, and too many are another matter.
    let none = clip("examples/cannot-tell.txt", "1,1", &[]);
    let words = "There is 1 point for 6 tones: give one point a tone, in t' order.";
    assert_eq!(none.line(2), words);
    let many = clip(SET, &"1,1\n".repeat(16), &[]);
    let words =
        "There are 16 points for 8 tones: give one point a tone, in t' order, and an empty \
                 line between symbols.";
    assert_eq!(many.line(2), words);
}

#[test]
fn uncoded_tables_stop_it() {
    let set = file(
        "clip-uncoded.txt",
        "# none\ncarriers 8\nmode uncoded\n1 2 512\n2 0 512\n",
    );
    for words in [&[] as &[&str], &["--json"]] {
        let ran = clip(&set, "1,1\n-1,-1", words);
        assert_eq!((ran.status, ran.out.as_str()), (65, ""));
        let words = ":3: `mode uncoded`, but `clip` is for coded tables, because the promise on turned \
                     symbols is of coded ones, and because t' may be another one if these are taken as \
                     coded; `turn` takes uncoded ones too";
        assert!(ran.err.contains(words), "{}", ran.err);
    }
    for words in [&["--help"], &["man"]] {
        let ran = run(words);
        assert!(
            ran.out.contains("; clip: the tables are uncoded\n"),
            "{}",
            ran.out
        );
    }
}

#[test]
fn wrong_calls() {
    for (words, message) in [
        (
            &["--register", "find"],
            "clip: --register takes a whole number from 1\n`turn --register find` ",
        ),
        (&["--start", "1"], "no option --start here"),
        (&["--out", "x"], "no option --out here"),
        (&["--svg", "x"], "no option --svg here"),
    ] {
        let ran = clip(SET, "", words);
        assert_eq!((ran.status, ran.out.as_str()), (64, ""));
        assert!(ran.err.contains(message), "{}", ran.err);
        assert!(ran.err.contains("usage: clevisroot clip TABLES POINTS "));
    }
    assert_eq!(run(&["clip", SET]).status, 64);
    assert_eq!(run(&["clip", SET, "examples/no.csv"]).status, 66);
}
