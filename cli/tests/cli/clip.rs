//! `clip` on one symbol: the answers from files that a person can edit, and what they rest on.

use crate::run::{equal, example, run, run_with, tables, Ran};

const SET: &str = "examples/clip.txt";
const A: &str = "examples/bench-a.txt";
const TWELVE: &str = "examples/twelve-monitored.txt";
const EVEN: &str = "examples/cannot-tell.txt";
const ODD: &str = "examples/five-twos.txt";

/// What a verdict that is not sure begins with.
const PERHAPS_STRAIGHT: &str = "Perhaps straight, so do not rely on it yet";
const PERHAPS_TURNED: &str = "Perhaps turned, so do not swap the clips yet";

/// The line of the examples' points that is the first monitored tone, counted from 1.
const FIRST: usize = 7;

fn clip(set: &str, points: &str, words: &[&str]) -> Ran {
    run_with(points.as_bytes(), &[&["clip", set, "-"], words].concat())
}

/// With the register that the examples were written with.
fn given(points: &str) -> Ran {
    clip(SET, points, &["--register", "4711"])
}

/// One sentence first: it begins with these words and is the only one. Then so many lines.
fn told(ran: &Ran, status: i32, words: &str, lines: usize) {
    assert_eq!((ran.status, ran.err.as_str()), (status, ""), "{}", ran.out);
    let sentence = ran.line(0);
    assert!(
        sentence.starts_with(&format!("{words}: ")) && sentence.ends_with('.'),
        "{sentence}"
    );
    assert_eq!(sentence.matches('.').count(), 1, "{sentence}");
    assert_eq!(ran.out.lines().count(), 1 + lines, "{}", ran.out);
}

/// A file with one line, counted from 1, put in place of another.
fn edited(text: &str, number: usize, line: &str) -> String {
    let mut lines: Vec<&str> = text.lines().collect();
    lines[number - 1] = line;
    lines.join("\n")
}

#[test]
fn the_answers_from_files() {
    let calls = [
        ("straight", 0, "Straight: "),
        ("turned", 32, "Turned: "),
        ("quarter", 37, "Turned by a quarter to the left: "),
        ("neither", 34, "Neither: "),
    ];
    for (name, status, word) in calls {
        let points = format!("examples/clip-{name}.csv");
        let ran = run(&["clip", SET, &points, "--register", "4711"]);
        assert_eq!((ran.status, ran.err.as_str()), (status, ""));
        assert!(ran.line(0).starts_with(word), "{}", ran.out);
        let place = format!("looked at: place 3 in t', sub-carrier 9, line {FIRST} of {points}: ");
        assert!(ran.line(1).starts_with(&place), "{}", ran.out);
        let filler = "and the filler bits give (1, -1)";
        assert!(ran.line(1).ends_with(filler), "{}", ran.out);
    }
    for register in [&[] as &[&str], &["--register", "1"]] {
        let words = [&["clip", EVEN, "examples/cannot-tell.csv"], register].concat();
        told(&run(&words), 33, "Cannot tell", 0);
    }
}

/// What the examples' comments say to try, and all else: only the first monitored tone counts.
#[test]
fn a_person_edits_the_files() {
    for name in ["straight", "turned", "quarter", "neither"] {
        let points = example(&format!("clip-{name}.csv"));
        for (line, status, word) in [
            ("1,-1", 0, "Straight"),
            ("-1,1", 32, "Turned"),
            ("1,1", 37, "Turned by a quarter to the left"),
            ("-1,-1", 37, "Turned by a quarter to the right"),
            ("3,-3", 34, "Neither"),
            ("0,0", 34, "Neither"),
            ("-99999,99999", 34, "Neither"),
            ("-32768,-32768", 34, "Neither"),
        ] {
            let ran = given(&edited(&points, FIRST, line));
            told(&ran, status, word, 1);
            let point = format!("the point is ({})", line.replace(',', ", "));
            assert!(ran.line(1).contains(&point), "{}", ran.out);
        }
        let before = given(&points);
        for line in (4..=11).filter(|line| *line != FIRST) {
            let after = given(&edited(&points, line, "190,-7"));
            assert_eq!(
                (after.status, after.out),
                (before.status, before.out.clone())
            );
        }
    }
}

/// The bits of the silent tone before it are drawn, and 1-bit tones stand behind it in t'.
#[test]
fn the_first_monitored_tone_is_the_one_in_t_dash() {
    let points = example("clip-straight.csv");
    let mut places = Vec::new();
    for tones in [
        vec![(9, 0, 512), (1, 0, 0), (2, 0, 512)],
        vec![(1, 0, 0), (9, 0, 512), (2, 0, 512)],
        vec![(1, 0, 0), (9, 0, 0), (2, 0, 512)],
    ] {
        let ones = vec![(3, 1, 512), (4, 1, 512)];
        let tones = [ones, tones, equal(1, 2), vec![(6, 4, 512), (7, 3, 512)]].concat();
        let set = tables("clip-order.txt", "coded", 12, &tones);
        let ran = clip(&set, &points, &["--register", "4711"]);
        places.push(ran.line(1).split(": the").next().unwrap().to_string());
        // 4711 draws 1 1, then 1 0, then 0 1: labels 3, 1 and 2.
        let filler = ["(-1, -1)", "(1, -1)", "(-1, 1)"][places.len() - 1];
        assert!(ran.line(1).ends_with(filler), "{}", ran.out);
    }
    let place = |place, tone| {
        let line = place + 4;
        format!("looked at: place {place} in t', sub-carrier {tone}, line {line} of standard input")
    };
    assert_eq!(places, [place(0, 9), place(1, 9), place(2, 2)]);
}

#[test]
fn it_says_what_it_rests_on() {
    let ran = given(&example("clip-turned.csv"));
    let words = "Turned: the clips are the wrong way round, so swap them, if the tables and \
                 register 4711, which was given, are the writer's and the one point that was looked at came as it was written but for a turn: \
                 the first monitored tone has the opposite of the point that its filler bits give, as \
                 it would with a wrong register about one time in 4 (theorems clip-of-written, clip-of-turned, clip-of-quarter).";
    assert_eq!(ran.line(0), words);
}

/// What else may be the cause, what is no cure, and what the whole symbol tells.
#[test]
fn a_quarter_turn_says_what_else_it_may_be() {
    let whole =
        "`turn` reads the whole symbol and tells a quarter turn whatever the register (theorem \
                 quarter-any-register).";
    let ran = given(&example("clip-quarter.csv"));
    let words = format!(
        "Turned by a quarter to the left: every (X, Y) came as (-Y, X), if the tables and register 4711, \
         which was given, are the writer's and the one point that was looked at came as it was written but \
         for a turn: the first monitored tone has the point that its filler bits give, turned so, as it \
         would with a wrong register about one time in 4, so check register and tables first, then the \
         hybrid, and leave the clips, for swapping them only changes the side (theorems clip-of-written, \
         clip-of-turned, clip-of-quarter); {whole}"
    );
    assert_eq!(ran.line(0), words);
    // The examples of `clip` were written with another register than the one at reset.
    let assumed = clip(SET, &example("clip-straight.csv"), &[]);
    let perhaps = "Perhaps turned by a quarter to the left, so do not rely on it yet";
    told(&assumed, 36, perhaps, 1);
    for words in [
        "has the point that its filler bits give, turned so, with register 8388607, \
         which is the value at reset, assumed because none was given, and about one wrong register in 4 \
         would look the same; the writer's register (--register N) would settle it, and so would `turn \
         --register find` from 12 monitored tones in one symbol, or 32 in several that follow each other",
        "; a wrong register is likelier unless the hybrid turns points, and swapping the clips would mend \
         neither; ",
        whole,
    ] {
        assert!(assumed.line(0).contains(words), "{}", assumed.out);
    }
}

/// With a wrong register one tone looks like each of the four ways, about one time in 4.
#[test]
fn a_wrong_register_looks_like_each_way() {
    let points = example("clip-straight.csv");
    let mut counts = [0; 4];
    for register in (1..=120).map(|number| (number * 69_901).to_string()) {
        let ran = clip(SET, &points, &["--register", &register]);
        let ways = [
            "Straight: ",
            "Turned: ",
            "Turned by a quarter to the left: ",
        ];
        let way = ways.iter().position(|word| ran.line(0).starts_with(word));
        counts[way.unwrap_or(3)] += 1;
        assert!(matches!(ran.status, 0 | 32 | 37), "{}", ran.out);
    }
    assert!(counts.iter().all(|&count| count > 15), "{counts:?}");
}

/// No register helps where the point is none of the four.
#[test]
fn a_point_that_no_register_gives_is_neither_for_all() {
    for point in ["3,-3", "0,0", "1,2", "-32768,1", "32768,-1"] {
        let points = edited(&example("clip-straight.csv"), FIRST, point);
        for words in [&[] as &[&str], &["--register", "4711"], &["--register=1"]] {
            let ran = clip(SET, &points, words);
            told(&ran, 34, "Neither", 1);
            let words = "has a point that filler bits never give, whatever the register, so look for \
                         noise or other tables before you swap the clips; `turn` too refuses such a \
                         symbol all four ways.";
            assert!(ran.line(0).ends_with(words), "{}", ran.out);
        }
        for register in ["4711", "find"] {
            let words = ["turn", SET, "-", "--register", register];
            let turn = run_with(points.as_bytes(), &words);
            assert_eq!(turn.status, 34, "{}", turn.out);
            let words = "refused all four ways whatever the register";
            assert!(turn.line(0).contains(words), "{}", turn.out);
        }
    }
}

#[test]
fn an_assumed_register_is_a_perhaps() {
    for (name, word) in [
        ("bench-a.csv", PERHAPS_STRAIGHT),
        ("bench-a-turned.csv", PERHAPS_TURNED),
    ] {
        let ran = clip(A, &example(name), &[]);
        told(&ran, 36, word, 1);
        let words = "the point that its filler bits give with register 8388607, which is the value at \
                     reset, assumed because none was given, and about one wrong register in 4 would \
                     look the same; the writer's register (--register N) would settle it, and so \
                     would `turn --register find` from 12 monitored tones in one symbol, or 32 in \
                     several that follow each other.";
        assert!(ran.line(0).ends_with(words), "{}", ran.out);
        let sure = clip(A, &example(name), &["--register", "0x7fffff"]);
        assert!(matches!(sure.status, 0 | 32), "{}", sure.out);
    }
}

/// What `turn` can do without the register, where it can.
#[test]
fn what_is_not_sure_points_to_turn() {
    let tones = [equal(5, 2), vec![(7, 0, 512)]].concat();
    let odd = tables("clip-odd.txt", "coded", 8, &tones);
    let trellis =
        "`turn`, whatever the register, because N, the count of non-zero re-ordered entries, \
                   is odd (5)";
    let find = "`turn --register find`, whatever the register";
    // The one at reset draws two ones: (-1, -1).
    for (set, places, turn) in [(odd.as_str(), 6, trellis), (TWELVE, 16, find)] {
        for (point, after) in [
            ("-1,-1\n", "."),
            ("1,-1\n", "; a wrong register is likelier unless"),
        ] {
            let ran = clip(set, &point.repeat(places), &[]);
            assert_eq!(ran.status, 36, "{}", ran.out);
            let words = format!("would settle it, and so would {turn}{after}");
            assert!(ran.line(0).contains(&words), "{}", ran.out);
        }
    }
}

#[test]
fn without_a_monitored_tone_it_says_whether_turn_can_tell() {
    let odd = "Cannot tell: this table set monitors no tone, and `clip` looks at monitored tones only; `turn` reads the \
               whole symbol and can tell, whatever the register, because N, the count of non-zero \
               re-ordered entries, is odd (5), and quarter turns too (theorems \
               half-turn-any-register, quarter-any-register); for `clip` to tell, it takes a spare tone \
               with 0 bits and a gain.";
    let even =
        "Cannot tell: this table set monitors no tone; nor can `turn` tell a written symbol from \
                one turned by half, because N, its count of non-zero re-ordered entries, is even (4), but \
                it tells a quarter turn, whatever the register (theorem quarter-any-register); a spare \
                tone with 0 bits and a gain would tell.";
    for (set, points, words, turn) in [
        (ODD, "five-twos-turned.csv", odd, 32),
        (EVEN, "cannot-tell.csv", even, 33),
    ] {
        let register = ["--register", "77"];
        let ran = clip(set, &example(points), &register);
        told(&ran, 33, "Cannot tell", 0);
        assert_eq!(ran.line(0), words);
        let words = [&["turn", set, "-"], register.as_slice()].concat();
        assert_eq!(run_with(example(points).as_bytes(), &words).status, turn);
    }
}
