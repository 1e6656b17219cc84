//! `turn` on points that are turned by a quarter: to which side, on what that rests, and where it is
//! open.

use crate::run::{
    equal, example, find, quarter_left, quarter_right, run, run_with, tables, turned, written, Ran,
};

const A: &str = "examples/bench-a.txt";
const ODD: &str = "examples/five-twos.txt";
const EVEN: &str = "examples/cannot-tell.txt";
const TWELVE: &str = "examples/twelve-monitored.txt";
const RESET: u32 = 8_388_607;

/// What every quarter turn says at its end, with the theorems.
fn surely(theorems: &str) -> String {
    format!(
        "; that it is a quarter turn holds whatever the register, of a symbol of these tables that came as \
         it was written but for a turn ({theorems})."
    )
}

fn turn(set: &str, points: &str, words: &[&str]) -> Ran {
    run_with(points.as_bytes(), &[&["turn", set, "-"], words].concat())
}

/// One sentence, which begins so, and a line for each of the four ways.
fn told(ran: &Ran, begins: &str) {
    assert_eq!((ran.status, ran.err.as_str()), (37, ""), "{}", ran.out);
    let sentence = ran.line(0);
    assert!(sentence.starts_with(begins), "{sentence}");
    assert_eq!(sentence.matches('.').count(), 1, "{sentence}");
    let labels = [
        "as they came:  ",
        "turned:        ",
        "quarter left:  ",
        "quarter right: ",
    ];
    for (number, label) in labels.into_iter().enumerate() {
        assert!(ran.line(number + 1).starts_with(label), "{}", ran.out);
    }
    assert_eq!(ran.out.lines().count(), 5);
}

const LEFT: &str = "Turned by a quarter to the left: look at the hybrid and leave the clips, for \
                    swapping them only changes the side; every (X, Y) came as (-Y, X)";
const RIGHT: &str =
    "Turned by a quarter to the right: look at the hybrid and leave the clips, for \
                     swapping them only changes the side; every (X, Y) came as (Y, -X)";
const OPEN: &str =
    "Turned by a quarter: look at the hybrid and leave the clips, for swapping them only \
                    changes the side; ";

#[test]
fn a_monitored_tone_tells_the_side() {
    for frame in 0..32 {
        let points = written(A, &format!("{frame:02x}"), RESET);
        let given = ["--register", "8388607"];
        for (points, begins, read, refused) in [
            (quarter_left(&points), LEFT, 3, 4),
            (quarter_right(&points), RIGHT, 4, 3),
        ] {
            let ran = turn(A, &points, &given);
            told(&ran, begins);
            let end = surely("theorems half-turn-monitored, quarter-any-register");
            let condition =
                ", if register 8388607, which was given, is the writer's: the points are read \
                             so and refused the other three ways, and 1 monitored tone agrees";
            for words in [condition, &end] {
                assert!(ran.line(0).contains(words), "{}", ran.out);
            }
            let frame = format!("read, frame {frame:02x} (hex)");
            assert!(ran.line(read).contains(&frame), "{}", ran.out);
            assert!(ran.line(refused).contains("refused, 14 MONITOR at place 3"));
            // The 1-bit tones are at places 4 and 5.
            assert!(ran.line(1).contains("refused, 13 OFFGRID at place 4"));
            assert!(ran.line(2).contains("refused, 13 OFFGRID at place 4"));
        }
    }
}

#[test]
fn an_odd_count_tells_the_side_whatever_the_register() {
    let tones = [equal(5, 2), vec![(7, 0, 512)]].concat();
    let monitored = tables("quarter-odd.txt", "coded", 8, &tones);
    for set in [ODD, &monitored] {
        let points = written(set, "05", 4711);
        for words in [&[] as &[&str], &["--register=77"], &["--register=find"]] {
            for (points, begins) in [
                (quarter_left(&points), LEFT),
                (quarter_right(&points), RIGHT),
            ] {
                let ran = turn(set, &points, words);
                told(
                    &ran,
                    &format!("{begins}, whatever the register: the trellis code tells, "),
                );
                let end = surely("theorems half-turn-any-register, quarter-any-register");
                assert!(ran.line(0).ends_with(&end), "{}", ran.out);
            }
        }
    }
}

/// Sure that it is a quarter turn, and nothing tells the side.
#[test]
fn an_even_count_and_no_monitored_tone_leave_the_side_open() {
    for frame in 0..32 {
        let points = written(EVEN, &format!("{frame:02x}"), RESET);
        for points in [quarter_left(&points), quarter_right(&points)] {
            for words in [&[] as &[&str], &["--register=77"], &["--register=find"]] {
                let ran = turn(EVEN, &points, words);
                let nothing =
                    "nothing can tell the side, for the points are read either way, because this table set monitors no tone and N, ";
                told(&ran, &format!("{OPEN}{nothing}"));
                let end = surely("theorems half-turn, quarter-any-register");
                assert!(ran.line(0).ends_with(&end), "{}", ran.out);
                assert!(ran.line(3).contains(" read, ") && ran.line(4).contains(" read, "));
            }
        }
    }
}

#[test]
fn the_register_is_found_from_points_turned_by_a_quarter() {
    let points = written(TWELVE, "02", 4711);
    for (points, begins) in [
        (quarter_left(&points), LEFT),
        (quarter_right(&points), RIGHT),
    ] {
        let ran = find("turn", TWELVE, &points);
        let words =
            ", whatever the register was: the points are read so and refused the other three ways with register 4711, which 12 monitored tones give ";
        told(&ran, &format!("{begins}{words}"));
        // The one that is given agrees with all of them.
        let ran = turn(TWELVE, &points, &["--register=4711"]);
        told(&ran, begins);
        let words = "12 monitored tones agree, as with no other register; that it is";
        assert!(ran.line(0).contains(words), "{}", ran.out);
    }
}

/// Some tones tell the side and not the register, as they tell the clip.
#[test]
fn some_tones_tell_the_side_and_not_the_register() {
    let spare = (0..24)
        .map(|tone| (10 + tone, 0, 512 * (1 - tone % 2)))
        .collect();
    let set = tables(
        "quarter-one-way.txt",
        "coded",
        40,
        &[equal(4, 2), spare].concat(),
    );
    let points = written(&set, "02", 4711);
    for (points, begins) in [
        (quarter_left(&points), LEFT),
        (quarter_right(&points), RIGHT),
    ] {
        let ran = find("turn", &set, &points);
        told(
            &ran,
            &format!("{begins}, whatever the register: the 12 monitored tones tell, "),
        );
        assert!(ran
            .line(0)
            .ends_with(&surely("theorem quarter-any-register")));
    }
}

/// An assumed register, one that reads no side, and too few tones.
#[test]
fn where_the_side_is_open_it_says_why() {
    let left = quarter_left(&written(A, "15", RESET));
    let settles = "; the writer's register (--register N) would settle the side, and so would --register \
                   find from 12 monitored tones in one symbol, or 32 in several that follow each other";
    let assumed = "perhaps it is by a quarter to the left, (-Y, X) for (X, Y): the points are read so and \
                   refused as turned to the other side, but only with register 8388607, which is the value at reset, \
                   assumed because none was given, and 1 monitored tone agrees";
    // The register 1 draws 1 0, and the one at reset 1 1.
    let refused =
        "the side is not told, for the points are refused either way with register 1, which was given; ";
    let few = "the side is not told, for the points are read either way: 1 monitored tone gives \
               only 2 equations for the 23 bits of the register; ";
    for (words, side) in [
        (&[] as &[&str], assumed),
        (&["--register=1"], refused),
        (&["--register=find"], few),
    ] {
        let ran = turn(A, &left, words);
        told(&ran, &format!("{OPEN}{side}"));
        assert!(ran.line(0).contains(settles), "{}", ran.out);
        let end = surely("theorem quarter-any-register");
        assert!(ran.line(0).ends_with(&end), "{}", ran.out);
    }
}

#[test]
fn the_examples() {
    for (set, points, words, begins) in [
        (A, "bench-a", &["--register=8388607"] as &[&str], LEFT),
        (A, "bench-a", &[], OPEN),
        (ODD, "five-twos", &[], RIGHT),
        (EVEN, "cannot-tell", &[], OPEN),
        (TWELVE, "twelve-monitored", &["--register=find"], LEFT),
        ("examples/clip.txt", "clip", &["--register=4711"], LEFT),
    ] {
        let points = format!("examples/{points}-quarter.csv");
        told(&run(&[&["turn", set, &points], words].concat()), begins);
    }
}

/// What the files say of themselves.
#[test]
fn the_examples_are_turned_from_others() {
    let same = |name: &str, other: String| {
        let bare = |text: &str| -> Vec<String> {
            let points = text
                .lines()
                .filter(|line| line.contains(',') && !line.contains(['#', 'x']));
            points.map(str::to_string).collect()
        };
        assert_eq!(bare(&example(&format!("{name}-quarter.csv"))), bare(&other));
    };
    same("bench-a", quarter_left(&example("bench-a.csv")));
    same("cannot-tell", quarter_left(&example("cannot-tell.csv")));
    same("clip", quarter_left(&example("clip-straight.csv")));
    let straight = turned(&example("twelve-monitored-turned.csv"));
    same("twelve-monitored", quarter_left(&straight));
    let straight = turned(&example("five-twos-turned.csv"));
    same("five-twos", quarter_right(&straight));
}
