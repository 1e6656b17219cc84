//! Silent tones draw filler bits that nobody sees: what the monitored tones between them can tell,
//! and what they cannot.

use crate::json::{object, text, Value};
use crate::run::{equal, find, numbers, run, run_with, symbols_of, tables, turned, verdicts};
use crate::run::{written, Ran};

const REGISTERS: [u32; 5] = [1, 4711, 4_194_304, 5_592_405, 8_388_607];

/// Why so many tones are not enough.
const UNSEEN: &str = "because silent tones between them draw filler bits that nobody sees";

/// Four 2-bit tones, so that N is even and the trellis code does not tell, then a tone for each
/// letter: monitored (m) or silent (s).
fn set_of(name: &str, letters: &str) -> String {
    let gain = |letter| if letter == 'm' { 512 } else { 0 };
    let spare = (4..).zip(letters.chars());
    let spare = spare.map(|(tone, letter)| (tone, 0, gain(letter)));
    let tones = [equal(4, 2), spare.collect()].concat();
    tables(name, "coded", tones.len(), &tones)
}

fn turn(set: &str, points: &str, register: u32) -> Ran {
    let register = register.to_string();
    let words = ["turn", set, "-", "--register", &register];
    run_with(points.as_bytes(), &words)
}

/// So many filler bits from reset on, by the rule.
fn bits_from_reset(count: usize) -> Vec<bool> {
    let mut bits = vec![true; 23];
    for n in 23..count {
        bits.push(bits[n - 18] ^ bits[n - 23]);
    }
    bits
}

/// Monitored where the two bits from reset on are both 1, else silent, in each of so many symbols.
/// Two registers that differ by the one at reset then give opposite points. The first so many of
/// these tones are kept.
fn deceiving(tones: usize, symbols: usize, kept: usize) -> String {
    let bits = bits_from_reset(2 * tones * symbols);
    let ones = |tone: usize| (0..symbols).all(|n| bits[2 * (tone + n * tones)..][..2] == [true; 2]);
    let mut left = kept;
    let letter = |tone| {
        let monitored = ones(tone) && left > 0;
        left -= usize::from(monitored);
        if monitored {
            'm'
        } else {
            's'
        }
    };
    let letters: String = (0..tones).map(letter).collect();
    assert_eq!(left, 0, "there are fewer");
    letters
}

#[test]
fn the_register_is_found_among_silent_tones() {
    let mut random = numbers(29);
    for number in 0..24 {
        let letters: String = (0..80)
            .map(|_| if random(2) == 0 { 'm' } else { 's' })
            .collect();
        let set = set_of(&format!("silent-{number}.txt"), &letters);
        let register = random(8_388_607) as u32 + 1;
        let points = written(&set, "01", register);
        let words = format!("with register {register}, which ");
        let straight = find("turn", &set, &points);
        assert_eq!(straight.status, 0, "{letters}: {}", straight.out);
        assert!(straight.line(0).contains(&words), "{}", straight.out);
        let wrong = find("turn", &set, &turned(&points));
        assert_eq!(wrong.status, 32, "{letters}: {}", wrong.out);
        assert!(wrong.line(0).contains(&words), "{}", wrong.out);
        let read = find("read", &set, &points);
        assert_eq!((read.status, read.line(2)), (0, "01"), "{}", read.out);
        assert_eq!(read.line(0), points.lines().next().unwrap());
    }
}

/// Every other tone is silent: 10 monitored tones tell nothing, 11 and 12 tell the clip and not the
/// register, and 13 tell both.
#[test]
fn every_other_tone_is_silent() {
    for monitored in 9..=14 {
        let name = format!("every-other-{monitored}.txt");
        let set = set_of(&name, &"ms".repeat(monitored));
        let [clip, register] = [monitored >= 11, monitored >= 13];
        for before in REGISTERS {
            let points = written(&set, "02", before);
            let status = find("turn", &set, &points).status;
            assert_eq!(status, if clip { 0 } else { 33 });
            let status = find("turn", &set, &turned(&points)).status;
            assert_eq!(status, if clip { 32 } else { 33 });
            let read = find("read", &set, &points);
            assert_eq!(read.status, if register { 0 } else { 33 });
            assert_eq!(read.out.contains(UNSEEN), monitored == 12, "{}", read.out);
        }
    }
}

#[test]
fn some_tones_tell_the_clip_and_not_the_register() {
    let set = set_of("one-way.txt", &"ms".repeat(12));
    let points = turned(&written(&set, "02", 4711));
    let words = "Turned: the clips are the wrong way round, so swap them, whatever the register: \
                 the 12 monitored tones tell, because the other way round no register gives their \
                 points (24 filler bits, where 2 check the others); nor is it a quarter turn \
                 (theorem quarter-any-register).";
    let found = find("turn", &set, &points);
    assert_eq!((found.status, found.line(0)), (32, words));
    assert!(found.line(2).ends_with("register not known"));
    // A register that reads them adds nothing to that; one that does not says nothing.
    let given = turn(&set, &points, 4711);
    assert_eq!((given.status, given.line(0)), (32, words));
    assert_eq!(turn(&set, &points, 8_388_607).status, 34);
    let words = "a turned clip shows whatever the register (--register find), because 12 tones \
                 are monitored and their filler bits check each other";
    assert_eq!(run(&["check", &set]).line(4), words);
}

#[test]
fn json_says_that_some_tones_tell_the_clip() {
    let set = set_of("one-way-json.txt", &"ms".repeat(12));
    let points = turned(&written(&set, "02", 4711));
    let words = ["turn", &set, "-", "--register=find", "--json"];
    let json = object(&run_with(points.as_bytes(), &words));
    assert_eq!(json["verdict"], text("turned"));
    assert_eq!(json["sure"], Value::Flag(true));
    let Value::Object(ground) = &json["rests_on"] else {
        panic!("no object")
    };
    assert_eq!(ground["holds_if"], Value::Null);
    assert_eq!(ground["register_is"], text("not needed"));
    assert_eq!(ground["monitored_tones"], Value::Number(12));
    let json = object(&run(&["check", &set, "--json"]));
    assert_eq!(json["turned_shows_without_register"], Value::Flag(true));
}

/// However many tones are monitored, silent ones can stand so that two registers give opposite points.
#[test]
fn many_tones_may_settle_nothing() {
    for (kept, name) in [(12, "deceiving-12.txt"), (60, "deceiving-60.txt")] {
        let set = set_of(name, &deceiving(400, 1, kept));
        // Register 0 would be the opposite of the one at reset, and is none.
        for register in &REGISTERS[..4] {
            let points = written(&set, "02", *register);
            let opposite = written(&set, "01", register ^ 8_388_607);
            let bare = |text: &str| turned(&turned(text)).replace("\n\n", "\n");
            assert_eq!(bare(&points), bare(&turned(&opposite)));
            for points in [turned(&points), points] {
                cannot_tell(&set, &points, kept);
                let ran = run_with(points.as_bytes(), &["turn", &set, "-"]);
                assert!(matches!(ran.status, 34 | 36), "{}", ran.out);
            }
        }
        let check = run(&["check", &set]);
        assert!(
            check
                .line(4)
                .contains("shows only if the register is known: "),
            "{}",
            check.out
        );
        let json = object(&run(&["check", &set, "--json"]));
        assert_eq!(json["turned_shows_without_register"], Value::Flag(false));
    }
}

fn cannot_tell(set: &str, points: &str, tones: usize) {
    let ran = find("turn", set, points);
    assert_eq!(ran.status, 33, "{}", ran.out);
    let words =
        format!("{tones} monitored tones do not settle the 23 bits of the register, {UNSEEN}");
    assert!(ran.line(0).contains(&words), "{}", ran.out);
    assert!(
        ran.line(0).contains("so would a few more monitored tones"),
        "{}",
        ran.out
    );
    let ran = find("read", set, points);
    assert_eq!(ran.status, 33, "{}", ran.out);
    assert!(ran.line(0).contains(UNSEEN), "{}", ran.out);
}

/// Agreement with the register that is given settles no more than the equations do.
#[test]
fn agreement_of_many_tones_may_settle_nothing() {
    let set = set_of("deceiving-agree.txt", &deceiving(400, 1, 40));
    let points = written(&set, "02", 4711);
    let wrong = turned(&points);
    for (register, points, word) in [
        (4711, &points, "Straight"),
        (4711, &wrong, "Turned"),
        (4711 ^ 8_388_607, &points, "Turned"),
    ] {
        let told = turn(&set, points, register);
        let words = format!("40 monitored tones agree, which does not settle it, {UNSEEN}");
        for words in [word, ", if register ", &words] {
            assert!(told.line(0).contains(words), "{}", told.out);
        }
    }
}

/// The next symbol agrees too, and the equations of both settle it.
#[test]
fn agreement_adds_up_along_a_stream() {
    let set = set_of("deceiving-agreed.txt", &deceiving(400, 1, 40));
    let symbols = symbols_of(&set, &["02".to_string(), "01".to_string()], "4711");
    let told = turn(&set, &symbols.join("\n"), 4711);
    let lines: Vec<&str> = told
        .out
        .lines()
        .filter(|line| line.contains("Straight: "))
        .collect();
    assert!(lines[0].contains(", if register 4711"), "{}", told.out);
    let words = "80 monitored tones agree, as with no other register";
    assert!(lines[1].contains(words), "{}", told.out);
    assert!(told.out.ends_with("in all: straight\n"), "{}", told.out);
}

/// 33 tones in three symbols that follow each other are not enough where their equations settle
/// nothing, and the next symbol is.
#[test]
fn a_stream_waits_until_its_equations_settle_it() {
    let set = set_of("deceiving-stream.txt", &deceiving(2_000, 3, 11));
    let frames: Vec<String> = (0..6).map(|number| format!("{:02x}", number % 4)).collect();
    let symbols = symbols_of(&set, &frames, "4711");
    let wrong: Vec<String> = symbols.iter().map(|symbol| turned(symbol)).collect();
    for count in 1..=6 {
        let ran = find("turn", &set, &wrong[..count].join("\n"));
        let (status, word) = if count < 4 {
            (33, "Cannot tell")
        } else {
            (32, "Turned")
        };
        assert_eq!(ran.status, status, "{}", ran.out);
        assert_eq!(ran.out.matches(&format!("{word}: ")).count(), count);
    }
    let read = find("read", &set, &symbols.join("\n"));
    assert_eq!(read.status, 0, "{}", read.out);
    let lines = read
        .out
        .lines()
        .filter(|line| !line.starts_with('#') && !line.is_empty());
    assert_eq!(lines.collect::<Vec<_>>(), frames);
    let found = "# register before 4711, found from 44 monitored tones";
    assert!(read.out.contains(found), "{}", read.out);
}

/// Few monitored tones and many silent ones: the draws go on from symbol to symbol by both.
#[test]
fn the_register_of_a_stream_goes_on_by_the_silent_tones_too() {
    let set = set_of("silent-stream.txt", &"ssmss".repeat(3));
    let frames: Vec<String> = (0..20)
        .map(|number| format!("{:02x}", number % 4))
        .collect();
    let symbols = symbols_of(&set, &frames, "4711");
    let read = find("read", &set, &symbols.join("\n"));
    assert_eq!(read.status, 0, "{}", read.out);
    assert!(
        read.out.contains("found from 33 monitored tones"),
        "{}",
        read.out
    );
    let wrong: Vec<String> = symbols.iter().map(|symbol| turned(symbol)).collect();
    assert_eq!(
        verdicts(&find("turn", &set, &wrong.join("\n"))),
        ["Turned"; 20]
    );
    let known = run_with(
        wrong.join("\n").as_bytes(),
        &["turn", &set, "-", "--register=4711"],
    );
    assert_eq!(verdicts(&known), ["Turned"; 20]);
}

/// Each symbol is a whole number of draws further on than the one before, silent tones alone too.
#[test]
fn silent_tones_move_the_register() {
    let set = tables("silent-only.txt", "uncoded", 3, &[(1, 0, 0), (2, 0, 0)]);
    let ran = run_with(b"0,0\n0,0\n", &["read", &set, "-"]);
    assert!(
        ran.line(0).ends_with("register after 524287"),
        "{}",
        ran.out
    );
    let points = "-1,-1\n-1,-1\n-1,-1\n0,0\n-1,-1\n-1,-1\n";
    let ran = run_with(
        points.as_bytes(),
        &["read", "examples/cannot-tell.txt", "-"],
    );
    assert!(
        ran.line(0).ends_with("register after 2097151"),
        "{}",
        ran.out
    );
    assert_eq!(ran.line(1), "0f");
}
