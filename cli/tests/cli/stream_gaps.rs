//! Symbols that are missing from a stream, came twice or came in part: nothing wrong is sure, and the
//! register is found anew.

use crate::run::{equal, numbers, run_with, symbols, symbols_of, tables, turned, verdicts};

const A: &str = "examples/bench-a.txt";

/// Turned symbols with a gap between them may look straight to a register that they seem to give:
/// read with it, they would be other frames.
#[test]
fn a_few_tones_of_several_symbols_give_no_frames() {
    for gap in 1..12 {
        let mut symbols = symbols(13, "4711");
        symbols.remove(gap);
        let text: Vec<String> = symbols.iter().map(|symbol| turned(symbol)).collect();
        let words = ["read", A, "-", "--register=find"];
        let ran = run_with(text.join("\n").as_bytes(), &words);
        assert_eq!(ran.status, 33, "{gap}: {}", ran.out);
        assert!(!ran.out.contains("DONE"), "{gap}: {}", ran.out);
        let sentence = "12 monitored tones of several symbols give ";
        assert!(ran.out.contains(sentence), "{gap}: {}", ran.out);
    }
}

/// Symbols with gaps between: whatever their number, none is sure.
#[test]
fn symbols_that_do_not_follow_each_other_give_no_register() {
    let all = symbols(150, "4711");
    for (start, step) in [(0, 3), (1, 3), (0, 2), (5, 7)] {
        let gaps: Vec<String> = all[start..].iter().step_by(step).cloned().collect();
        for count in [12, 13, 20, gaps.len()] {
            let text = gaps[..count.min(gaps.len())].join("\n");
            let ran = run_with(text.as_bytes(), &["turn", A, "-", "--register=find"]);
            let told = verdicts(&ran);
            let unsure = |verdict: &String| verdict != "Straight" && verdict != "Turned";
            assert!(told.iter().all(unsure), "{start} {step} {count}: {told:?}");
        }
    }
}

/// A gap in a long stream: what comes before it and after it is told, and nothing wrong.
#[test]
fn a_missing_symbol_is_noticed() {
    let mut symbols = symbols(100, "4711");
    symbols.remove(40);
    let ran = run_with(
        symbols.join("\n").as_bytes(),
        &["turn", A, "-", "--register=find"],
    );
    let told = verdicts(&ran);
    assert!(told.iter().all(|verdict| verdict != "Turned"), "{told:?}");
    assert!(
        told[..40].iter().all(|verdict| verdict == "Straight"),
        "{told:?}"
    );
    assert!(
        told[60..].iter().all(|verdict| verdict == "Straight"),
        "{told:?}"
    );
}

/// The first symbol came without its last points: the writer has drawn for it, the reader has not,
/// so that the register that was given is not that of the next symbol.
#[test]
fn after_a_symbol_of_the_wrong_length_nothing_is_sure() {
    let short = |symbol: &str| symbol.lines().take(3).collect::<Vec<_>>().join("\n") + "\n";
    for register in (1..=40).map(|number| (number * 209_701).to_string()) {
        let mut symbols = symbols(2, &register);
        symbols[0] = short(&symbols[0]);
        let words = ["turn", A, "-", "--register", &register];
        let ran = run_with(symbols.join("\n").as_bytes(), &words);
        let told = &verdicts(&ran)[1];
        assert!(told != "Straight" && told != "Turned", "{}", ran.out);
    }
}

/// The point of the monitored tone of bench table A.
fn monitored(symbol: &str) -> &str {
    symbol.lines().nth(3).unwrap()
}

/// Symbols of a straight stream, many missing between them, whose monitored tones look turned to a
/// register that nobody knows to be right.
fn deceiving(count: usize) -> Vec<String> {
    let expected = symbols(count, "8388607");
    let mut sent = symbols(12 * count, "4711").into_iter();
    let wanted = expected.iter().map(|symbol| turned(monitored(symbol)));
    wanted
        .map(|wanted| {
            let alike = sent.find(|symbol| monitored(symbol) == wanted.trim());
            alike.expect("one in four is so")
        })
        .collect()
}

#[test]
fn a_few_tones_of_symbols_with_gaps_do_not_settle_it() {
    let text = deceiving(16).join("\n");
    let ran = run_with(text.as_bytes(), &["turn", A, "-"]);
    assert_eq!(verdicts(&ran), ["Perhaps turned"; 16], "{}", ran.out);
    let missing = "16 monitored tones of several symbols agree, which settles it only if no \
                   symbol is missing between them";
    assert!(ran.out.contains(missing), "{}", ran.out);
    // With a register that was given, the verdict keeps its condition.
    let words = ["turn", A, "-", "--register", "8388607"];
    let ran = run_with(text.as_bytes(), &words);
    let lines = ran.out.lines().filter(|line| line.starts_with("symbol "));
    let condition = "if register ";
    assert!(
        lines.clone().all(|line| line.contains(condition)),
        "{}",
        ran.out
    );
}

/// Once a symbol is out of step, those after it wait for the register too, and none is told before
/// one that came earlier.
#[test]
fn symbols_are_told_in_their_order() {
    let mut symbols = symbols(120, "4711");
    for (place, again) in [(40, 39), (50, 48), (80, 80)] {
        let symbol = symbols[again].clone();
        symbols.insert(place, symbol);
    }
    symbols.remove(100);
    let text = symbols.join("\n");
    for command in ["read", "turn"] {
        let ran = run_with(text.as_bytes(), &[command, A, "-", "--register=find"]);
        let lines = ran.out.lines().map(|line| line.trim_start_matches("# "));
        let numbers = lines.filter_map(|line| line.strip_prefix("symbol ")?.split(':').next());
        let expected: Vec<String> = (0..122).map(|number| number.to_string()).collect();
        assert_eq!(numbers.collect::<Vec<_>>(), expected, "{command}");
    }
}

/// Some symbols are missing, some came twice, and some without their last points.
fn damaged(symbols: &[String], random: &mut impl FnMut(u64) -> u64) -> Vec<String> {
    let mut came = Vec::new();
    for symbol in symbols {
        match random(10) {
            0 | 1 => {}
            2 => came.push(symbol.lines().next().unwrap().to_string() + "\n"),
            3 => came.extend([symbol.clone(), symbol.clone()]),
            _ => came.push(symbol.clone()),
        }
    }
    came
}

/// Four tones of 2 bits, so that N is even and the trellis code cannot tell, and monitored ones with
/// so many silent ones after each.
fn even_set(monitored: usize, silent: usize) -> String {
    let spare = [vec![512], vec![0; silent]].concat().repeat(monitored);
    let spare = (4..).zip(spare).map(|(tone, gain)| (tone, 0, gain));
    let tones = [equal(4, 2), spare.collect()].concat();
    let name = format!("gaps-{monitored}-{silent}.txt");
    tables(&name, "coded", tones.len(), &tones)
}

#[test]
fn no_damaged_stream_is_told_wrongly() {
    let mut random = numbers(17);
    let without_silent = [1, 2, 5, 11, 12, 20].map(|monitored| (monitored, 0));
    let with_silent = [(1, 2), (5, 1), (12, 1), (14, 3)];
    for (monitored, silent) in without_silent.into_iter().chain(with_silent) {
        let set = even_set(monitored, silent);
        let frames: Vec<String> = (0..60)
            .map(|number| format!("{:02x}", number % 4))
            .collect();
        for register in ["8388607", "4711", "65537"] {
            let straight = damaged(&symbols_of(&set, &frames, register), &mut random);
            let wrong: Vec<String> = straight.iter().map(|symbol| turned(symbol)).collect();
            for (symbols, never) in [(&straight, "Turned"), (&wrong, "Straight")] {
                let text = symbols.join("\n");
                for words in [
                    &["turn", &set, "-"][..],
                    &["turn", &set, "-", "--register=find"],
                ] {
                    let told = verdicts(&run_with(text.as_bytes(), words));
                    assert!(told.iter().all(|told| told != never), "{words:?}: {told:?}");
                }
            }
            let words = ["read", &set, "-", "--register=find"];
            let read = run_with(wrong.join("\n").as_bytes(), &words);
            assert!(!read.out.contains("DONE"), "{}", read.out);
        }
    }
}
