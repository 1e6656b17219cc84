//! Streams that are turned by a quarter: the register is carried and found as in others, and one verdict
//! is made of all symbols.

use crate::json::{inner, object, text, Value};
use crate::run::{
    path, quarter_left, quarter_right, run, run_with, symbols, symbols_of, tables, turned,
    verdicts, Ran,
};
use std::fs;

const A: &str = "examples/bench-a.txt";
const EVEN: &str = "examples/cannot-tell.txt";
const LEFT: &str = "Turned by a quarter to the left";
const OPEN: &str = "Turned by a quarter";

/// The end of totals that contradict each other.
const BOTH: &str =
    "; in all: cannot tell, for some symbols are turned by a quarter and some are not";

fn left(symbols: &[String]) -> Vec<String> {
    symbols.iter().map(|symbol| quarter_left(symbol)).collect()
}

fn turn(symbols: &[String], words: &[&str]) -> Ran {
    let words = [&["turn", A, "-"], words].concat();
    run_with(symbols.join("\n").as_bytes(), &words)
}

fn last(ran: &Ran) -> &str {
    ran.out.lines().last().unwrap()
}

#[test]
fn the_register_is_carried_and_found() {
    let straight = symbols(40, "4711");
    let right: Vec<String> = straight
        .iter()
        .map(|symbol| quarter_right(symbol))
        .collect();
    for (symbols, side) in [(&left(&straight), "left"), (&right, "right")] {
        for register in ["--register=4711", "--register=find"] {
            let ran = turn(symbols, &[register]);
            let word = format!("Turned by a quarter to the {side}");
            assert_eq!(verdicts(&ran), vec![word.as_str(); 40], "{register}");
            let totals = format!("40 symbols: 40 quarter {side}; in all: quarter {side}");
            assert_eq!((ran.status, last(&ran)), (37, totals.as_str()));
        }
    }
}

#[test]
fn agreement_adds_up() {
    let ran = turn(&left(&symbols(34, "8388607")), &[]);
    let expected = [vec![OPEN; 31], vec![LEFT; 3]].concat();
    assert_eq!(verdicts(&ran), expected);
    let totals = "34 symbols: 3 quarter left, 31 quarter; in all: quarter left";
    assert_eq!((ran.status, last(&ran)), (37, totals));
    // Fewer leave the side open.
    let ran = turn(&left(&symbols(12, "8388607")), &[]);
    let totals = "12 symbols: 12 quarter; in all: quarter";
    assert_eq!((ran.status, last(&ran)), (37, totals));
    let few = turn(&left(&symbols(12, "4711")), &["--register=find"]);
    assert_eq!((few.status, last(&few)), (37, totals));
    let words = "perhaps it is by a quarter to the left, (-Y, X) for (X, Y): the points are read so and \
                 refused as turned to the other side, but only with register 4711, which 12 monitored tones of several symbols \
                 give if none is missing between them; ";
    assert_eq!(few.out.matches(words).count(), 1, "{}", few.out);
}

#[test]
fn the_condition_of_the_totals() {
    let ran = turn(&left(&symbols(3, "4711")), &["--register=4711"]);
    let totals =
        "3 symbols: 3 quarter left; in all: quarter left, if the register that was given is the \
                  writer's";
    assert_eq!((ran.status, last(&ran)), (37, totals));
    let ran = turn(&left(&symbols(3, "4711")), &["--register=4711", "--json"]);
    let totals = inner(&object(&ran), "totals");
    assert_eq!(totals["verdict"], text("quarter left"));
    assert_eq!(inner(&totals, "verdicts")["quarter left"], Value::Number(3));
    assert_eq!(inner(&totals, "verdicts")["quarter"], Value::Number(0));
}

/// A damaged symbol speaks against the register that was given, and not against the quarter turn.
#[test]
fn after_a_refused_symbol_only_the_side_is_open() {
    let mut symbols = left(&symbols(40, "4711"));
    symbols[20] = symbols[20].replacen('1', "2", 1);
    let ran = turn(&symbols, &["--register=4711"]);
    let told = verdicts(&ran);
    assert!(told[..20].iter().all(|word| word == LEFT), "{told:?}");
    assert_eq!(told[20], "Neither");
    assert!(told[21..].iter().all(|word| word == OPEN), "{told:?}");
    let totals = "40 symbols: 20 quarter left, 19 quarter, 1 neither; in all: quarter";
    assert_eq!((ran.status, last(&ran)), (37, totals));
    // The register is found anew from those after it.
    let ran = turn(&symbols, &["--register=find"]);
    let told = verdicts(&ran);
    let others = told.iter().enumerate().filter(|(number, _)| *number != 20);
    assert!(
        others.clone().count() == 39 && others.clone().all(|(_, word)| word == LEFT),
        "{told:?}"
    );
    assert!(
        last(&ran).ends_with("in all: quarter left"),
        "{}",
        last(&ran)
    );
}

/// A stream is one connection: what is sure of a quarter turn and sure of none contradicts.
#[test]
fn a_change_of_the_family_cannot_be_told() {
    let all = symbols(80, "4711");
    for count in [3, 20, 40] {
        let mixed = [all[..count].to_vec(), left(&all[count..2 * count])].concat();
        for words in ["--register=4711", "--register=find", "--register=8388607"] {
            let ran = turn(&mixed, &[words]);
            assert_eq!(ran.status, 33, "{}", last(&ran));
            assert!(last(&ran).ends_with(BOTH), "{}", last(&ran));
            let told = verdicts(&ran);
            assert!(
                told[..count].iter().all(|word| !word.starts_with(OPEN)),
                "{told:?}"
            );
            assert!(
                told[count..].iter().all(|word| word.starts_with(OPEN)),
                "{told:?}"
            );
            assert_eq!(told.len(), 2 * count);
            let numbers = ran.out.lines().filter(|line| line.starts_with("symbol "));
            for (number, line) in numbers.enumerate() {
                assert!(line.starts_with(&format!("symbol {number}: ")), "{line}");
            }
        }
    }
    // Tones that agreed before count no more, and the register is in doubt.
    let mixed = [all[..3].to_vec(), left(&all[3..5])].concat();
    let ran = turn(&mixed, &["--register=4711"]);
    assert_eq!(verdicts(&ran)[3], OPEN);
    let words =
        "which had a symbol before another way round and so may be out of step, and 1 monitored \
                 tone agrees";
    assert!(ran.out.contains(words), "{}", ran.out);
}

/// Enough tones of each part give its register, though the other part comes before or after.
#[test]
fn each_part_gives_its_register() {
    let all = symbols(80, "4711");
    let mixed = [left(&all[..40]), all[40..].to_vec()].concat();
    let ran = turn(&mixed, &["--register=find"]);
    let expected = [vec![LEFT; 40], vec!["Straight"; 40]].concat();
    assert_eq!(verdicts(&ran), expected);
    let totals = format!("80 symbols: 40 straight, 40 quarter left{BOTH}");
    assert_eq!(last(&ran), totals);
}

#[test]
fn the_side_stays_open_where_nothing_tells_it() {
    let frames = vec!["05".to_string(); 3];
    let straight = symbols_of(EVEN, &frames, "8388607");
    let words = ["turn", EVEN, "-"];
    let ran = run_with(left(&straight).join("\n").as_bytes(), &words);
    assert_eq!(
        (ran.status, last(&ran)),
        (37, "3 symbols: 3 quarter; in all: quarter")
    );
    // A symbol that cannot be told is no quarter turn.
    let mixed = [straight[..2].to_vec(), left(&straight[2..])].concat();
    let ran = run_with(mixed.join("\n").as_bytes(), &words);
    let totals = format!("3 symbols: 1 quarter, 2 cannot tell{BOTH}");
    assert_eq!((ran.status, last(&ran)), (33, totals.as_str()));
}

/// By the trellis code both are sure, whatever the register.
#[test]
fn two_sides_contradict_each_other_and_the_quarter_turn_stands() {
    let tones: Vec<(usize, usize, usize)> = (0..5).map(|tone| (tone, 2, 512)).collect();
    let set = tables("stream-sides.txt", "coded", 8, &tones);
    let straight = symbols_of(&set, &vec!["05".to_string(); 2], "8388607");
    let sides = [quarter_left(&straight[0]), quarter_right(&straight[1])];
    let ran = run_with(sides.join("\n").as_bytes(), &["turn", &set, "-"]);
    let totals = "2 symbols: 1 quarter left, 1 quarter right; in all: quarter";
    assert_eq!((ran.status, last(&ran)), (37, totals));
    let halves = [straight[0].clone(), turned(&straight[1])];
    let ran = run_with(halves.join("\n").as_bytes(), &["turn", &set, "-"]);
    let totals = "2 symbols: 1 straight, 1 turned; in all: cannot tell";
    assert_eq!((ran.status, last(&ran)), (33, totals));
}

/// A quarter turn is an answer, which --stop does not end at; the picture has its word.
#[test]
fn stop_and_picture() {
    let ran = turn(&left(&symbols(3, "4711")), &["--register=1", "--stop"]);
    assert!(last(&ran).starts_with("3 symbols: "), "{}", ran.out);
    let svg = path("quarter.svg");
    let svg = svg.to_str().unwrap();
    let points = "examples/bench-a-quarter.csv";
    let ran = run(&["turn", A, points, "--register=8388607", "--svg", svg]);
    assert_eq!(ran.status, 37, "{}", ran.err);
    let drawn = fs::read_to_string(svg).unwrap();
    let caption = ">turn: quarter left; as they came refused, 13 OFFGRID at place 4 in t', ";
    assert!(drawn.contains(caption), "{drawn}");
}

/// `clip` takes a quarter turn as a way like the others.
#[test]
fn clip_on_a_stream() {
    let straight = symbols(6, "4711");
    let ran = |symbols: &[String]| {
        let words = ["clip", A, "-", "--register=4711"];
        run_with(symbols.join("\n").as_bytes(), &words)
    };
    let condition =
        "if the tables and the register that were given are the writer's and the points that \
                     were looked at came as they were written but for a turn";
    let told = ran(&left(&straight));
    let totals = format!("6 symbols: 6 quarter left; in all: quarter left, {condition}");
    assert_eq!((told.status, last(&told)), (37, totals.as_str()));
    let mut noisy = left(&straight);
    noisy[2] = noisy[2].lines().map(|_| "5,5\n").collect();
    let told = ran(&noisy);
    let totals = "6 symbols: 2 quarter left, 3 perhaps quarter left, 1 neither; in all: perhaps quarter left";
    assert_eq!((told.status, last(&told)), (36, totals));
    let mixed = [straight[..2].to_vec(), left(&straight[2..])].concat();
    let told = ran(&mixed);
    let totals = "6 symbols: 2 straight, 4 perhaps quarter left; in all: cannot tell";
    assert_eq!((told.status, last(&told)), (33, totals));
}
