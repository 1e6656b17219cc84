//! Pairs that are made straight from points, with the proved reader.

use crate::json::{object, text, Value};
use crate::refusals::refused;
use crate::run::{file, frames, path, run, run_with, symbols, symbols_of, tables, turned, Ran};

const A: &str = "examples/bench-a.txt";

/// The report of these frames and points, from files of this name.
fn of(name: &str, set: &str, sent: &[String], points: &[String], more: &[&str]) -> Ran {
    let sent = file(&format!("{name}.hex"), sent.join("\n\n"));
    let points = file(&format!("{name}.csv"), points.join("\n"));
    let words = [
        "report", "--tables", set, "--sent", &sent, "--points", &points,
    ];
    run(&[&words[..], more].concat())
}

/// The name and the figures.
fn row(ran: &Ran) -> String {
    assert_eq!(ran.status, 0, "{}", ran.err);
    ran.line(1).split_whitespace().collect::<Vec<_>>().join(" ")
}

#[test]
fn the_register_goes_from_one_symbol_to_the_next() {
    let (sent, points) = (frames(40), symbols(40, "4711"));
    let ran = of("straight", A, &sent, &points, &["--register", "4711"]);
    assert_eq!(row(&ran), "straight 40 0 0 0 0 none");
    assert!(
        ran.out.contains("\nClean in these 40 symbols"),
        "{}",
        ran.out
    );
    assert!(
        ran.out.contains("register 4711 before the first"),
        "{}",
        ran.out
    );
    // With another register monitored tones disagree.
    let ran = of("other-register", A, &sent, &points, &["--pair", "other"]);
    let refused: usize = row(&ran).split(' ').nth(2).unwrap().parse().unwrap();
    assert!(
        refused > 20 && row(&ran).starts_with("other 40 "),
        "{}",
        ran.out
    );
    let line = format!("refused: {refused} symbols with 14 MONITOR: ");
    assert!(ran.out.contains(&line), "{}", ran.out);
}

/// `read`, which does not know what was sent, goes on with a register that is behind the writer's.
#[test]
fn a_refused_symbol_does_not_disturb_those_after_it() {
    let mut points = symbols(40, "8388607");
    points[5] = points[5].replacen(|letter: char| letter.is_ascii_digit(), "2", 1);
    points[9] = "1,1\n".to_string();
    let ran = of("disturbed", A, &frames(40), &points, &[]);
    assert_eq!(row(&ran), "disturbed 40 2 0 0 0 5");
    for refusal in ["13 OFFGRID", "10 ROOM"] {
        let line = format!("refused: 1 symbol with {refusal}: ");
        assert!(ran.out.contains(&line), "{}", ran.out);
    }
    let read = run(&["read", A, path("disturbed.csv").to_str().unwrap()]);
    assert!(read.out.contains("14 MONITOR"), "{}", read.out);
}

/// As is promised, if the register is the writer's: all are refused, or all are other frames.
#[test]
fn turned_points_are_refused_or_read_as_other_frames() {
    let turn = |points: Vec<String>| points.iter().map(|points| turned(points)).collect();
    let points: Vec<String> = turn(symbols(30, "8388607"));
    let ran = of("turned-pair", A, &frames(30), &points, &[]);
    assert_eq!(row(&ran), "turned-pair 30 30 0 0 none 0");
    assert!(
        ran.out.contains("refused: 30 symbols with 14 MONITOR"),
        "{}",
        ran.out
    );
    // Where no tone is monitored and N is even, no symbol is refused and each is another frame.
    let set = "examples/cannot-tell.txt";
    let points: Vec<String> = turn(symbols_of(set, &frames(30), "8388607"));
    let ran = of("unseen", set, &frames(30), &points, &[]);
    assert!(row(&ran).starts_with("unseen 30 0 30 "), "{}", ran.out);
    assert!(
        ran.out
            .contains("\nNOTE: This table set cannot show by a refusal"),
        "{}",
        ran.out
    );
}

#[test]
fn a_log_and_the_options_give_the_same_figures() {
    let log = run(&["report", "examples/pair-9.log"]);
    let words = [
        "report",
        "--tables",
        A,
        "--sent",
        "examples/bench-a-stream.hex",
        "--points",
        "examples/bench-a-stream.csv",
        "--pair",
        "Kiln Lane, pair 9",
    ];
    let options = run(&words);
    assert_eq!(row(&log), row(&options));
    let both = run(&[&words[..], &["examples/pair-7.log"]].concat());
    assert!(
        both.line(1).starts_with("Kiln Lane, pair 7"),
        "{}",
        both.out
    );
    assert!(
        both.line(2).starts_with("Kiln Lane, pair 9"),
        "{}",
        both.out
    );
    let piped = run_with(
        b"-1,3\n-1,-1\n-3,1\n-1,-1\n1,1\n1,1\n",
        &[
            "report",
            "--tables",
            A,
            "--sent",
            "examples/bench-a.hex",
            "--points",
            "-",
        ],
    );
    assert_eq!(row(&piped), "standard input 1 0 0 0 0 none");
}

#[test]
fn frames_may_start_inside_their_first_byte() {
    let (sent, points) = (vec!["4005".to_string()], symbols(4, "8388607"));
    let point = "-1,3\n-1,-1\n-3,1\n-1,-1\n1,1\n1,1\n".to_string();
    let ran = of("start-6", A, &sent, &[point], &["--start", "6"]);
    assert_eq!(row(&ran), "start-6 1 0 0 0 0 none");
    assert!(
        ran.out.contains("L = 5 bits from bit 6 on, in 2 bytes"),
        "{}",
        ran.out
    );
    assert!(ran.out.contains("wrong bits: 0 of 5 bits"), "{}", ran.out);
    let log = "tables: examples/bench-a.txt\nstart: 6\n4005 4005\n4005 4004\n";
    let ran = run_with(log.as_bytes(), &["report", "-"]);
    assert!(
        ran.out.contains("wrong bits: 1 of 10 bits"),
        "{}{}",
        ran.out,
        ran.err
    );
    let ran = of("start-8", A, &frames(4), &points, &["--start", "8"]);
    assert_eq!((ran.status, ran.line(0)), (11, "refused: 11 FRAME"));
    assert!(ran
        .line(1)
        .starts_with("at place 0: the start of the frame, of pair start-8 with "));
    let ran = of("register-0", A, &frames(4), &points, &["--register", "0"]);
    assert_eq!((ran.status, ran.line(0)), (12, "refused: 12 SEED"));
    assert!(ran.line(2).contains("so not 0: set it"), "{}", ran.out);
}

/// A second frame that is none of bench table A, and what is wrong with it.
fn misfits() -> [(String, &'static str); 3] {
    [
        ("1500".to_string(), "and this frame has 2 bytes"),
        (
            "ff".to_string(),
            "the upper 3 bits of the last byte are not used and must be 0",
        ),
        ("00".repeat(9000), "and this frame has more than 7681 bytes"),
    ]
}

/// Its file and its line are named, whatever came of its points.
#[test]
fn a_sent_frame_that_does_not_fit() {
    let points = symbols(3, "8388607");
    let file = path("misfit.hex");
    let file = file.to_str().unwrap();
    let place = format!("at place 0: symbol 1 of pair misfit, line 4 of {file}");
    for (frame, fault) in misfits() {
        let mut sent = frames(3);
        sent[1] = format!("# the second\n{frame}");
        for second in [points[1].as_str(), "1,1\n"] {
            let points = [&points[0], second, &points[2]].map(str::to_string);
            let ran = of("misfit", A, &sent, &points, &[]);
            assert_eq!(ran.line(1), place);
            let sentence = format!("The frame that was sent is none of {A} (L = 5 bits in 1 byte");
            refused(&ran, 11, "FRAME", &place, &sentence);
            let advice = format!("{fault}): name the table set and the start that were used.");
            refused(&ran, 11, "FRAME", &place, &advice);
            let json = object(&of("misfit", A, &sent, &points, &["--json"]));
            let names = [text(file), text("misfit")];
            assert_eq!([&json["file"], &json["pair"]], names.each_ref());
            let numbers = [4, 1].map(Value::Number);
            assert_eq!([&json["line"], &json["symbol"]], numbers.each_ref());
        }
    }
}

/// A file without any line is one frame without bytes.
#[test]
fn a_sent_file_without_a_frame() {
    let ran = of("no-frame", A, &[], &symbols(1, "8388607"), &[]);
    let file = path("no-frame.hex");
    let place = format!(
        "at place 0: symbol 0 of pair no-frame, in {}",
        file.display()
    );
    refused(
        &ran,
        11,
        "FRAME",
        &place,
        "and this frame has 0 bytes): name",
    );
}

/// One symbol more than a report holds: the parts need registers of their own.
#[test]
fn full_of_points() {
    let set = tables("full-points.txt", "uncoded", 1, &[(0, 1, 512)]);
    let (sent, points) = (
        vec!["00".to_string(); 65_536],
        vec!["1,1\n".to_string(); 65_536],
    );
    let ran = of("full-points", &set, &sent, &points, &[]);
    let place = format!(
        "at place 0: symbol 65535 of pair full-points, line 131071 of {}",
        path("full-points.hex").display()
    );
    let sentence = "split both files, and report the parts as pairs of their own, each with the \
                    register of its first symbol.";
    refused(&ran, 22, "FULL", &place, sentence);
}

#[test]
fn each_frame_has_the_points_of_its_symbol() {
    let points = symbols(5, "8388607");
    for (sent, came) in [(5, 4), (4, 5), (1, 5), (5, 1)] {
        let name = format!("unequal-{sent}-{came}");
        let ran = of(&name, A, &frames(sent), &points[..came], &[]);
        assert_eq!((ran.status, ran.out.as_str()), (65, ""), "{}", ran.err);
        let plural = |count| if count == 1 { "" } else { "s" };
        let counts = format!(
            "{name}.csv the points of {came} symbol{}: give each frame",
            plural(came)
        );
        let sent = format!("{name}.hex has {sent} frame{}, and ", plural(sent));
        assert!(ran.err.contains(&sent), "{}", ran.err);
        assert!(ran.err.contains(&counts), "{}", ran.err);
    }
}

/// A symbol of the wrong length is a refused symbol, as `read` has it.
#[test]
fn a_symbol_of_the_wrong_length_is_counted_as_refused() {
    let mut points = symbols(3, "8388607");
    points[1] = "1,1\n".to_string();
    let ran = of("short-symbol", A, &frames(3), &points, &[]);
    assert!(
        ran.out.contains("refused: 1 symbol with 10 ROOM: "),
        "{}",
        ran.out
    );
}
