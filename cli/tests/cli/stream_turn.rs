//! The register along a stream: carried, found, lost after a refusal; and no verdict that is wrong and
//! sure.

use crate::run::{equal, frames, run_with, symbols, symbols_of, tables, turned, verdicts};

const A: &str = "examples/bench-a.txt";

#[test]
fn no_verdict_on_a_stream_is_wrong_and_sure() {
    // From the middle of a stream, with and without the register.
    let straight = symbols(40, "4711");
    for (symbols, word, status) in [
        (straight.clone(), "Straight", 0),
        (
            straight.iter().map(|symbol| turned(symbol)).collect(),
            "Turned",
            32,
        ),
    ] {
        let text = symbols.join("\n");
        let ran = run_with(text.as_bytes(), &["turn", A, "-"]);
        let sure = ["Straight", "Turned"];
        assert_eq!(verdicts(&ran).len(), 40);
        assert!(verdicts(&ran)
            .iter()
            .all(|verdict| !sure.contains(&verdict.as_str())));
        for register in ["4711", "0x1267", "find"] {
            let ran = run_with(text.as_bytes(), &["turn", A, "-", "--register", register]);
            assert_eq!(verdicts(&ran), vec![word; 40], "{register}");
            assert_eq!(ran.status, status);
            let lower = word.to_lowercase();
            let totals = format!("40 symbols: 40 {lower}; in all: {lower}");
            assert_eq!(ran.out.lines().last(), Some(totals.as_str()));
        }
    }
}

#[test]
fn agreement_adds_up_along_a_stream() {
    let text = symbols(34, "8388607").join("\n");
    let ran = run_with(text.as_bytes(), &["turn", A, "-"]);
    let expected = [vec!["Perhaps straight"; 31], vec!["Straight"; 3]].concat();
    assert_eq!(verdicts(&ran), expected);
    assert!(ran
        .out
        .contains("2 monitored tones agree, as they would with a wrong register one time in 16"));
    assert!(ran
        .out
        .contains("34 monitored tones agree, as with no other register"));
}

#[test]
fn after_a_refused_symbol_nothing_is_sure() {
    // Symbol 20 is damaged; the writer's register has gone on, the one handed back has not.
    let mut symbols = symbols(40, "4711");
    symbols[20] = symbols[20].replacen("1", "2", 1);
    let text = symbols.join("\n");
    let ran = run_with(text.as_bytes(), &["turn", A, "-", "--register", "4711"]);
    let told = verdicts(&ran);
    assert!(told[..20].iter().all(|verdict| verdict == "Straight"));
    assert_eq!(told[20], "Neither");
    assert!(told[21..]
        .iter()
        .all(|verdict| verdict != "Straight" && verdict != "Turned"));
    // The register is found anew from those after it.
    let ran = run_with(text.as_bytes(), &["turn", A, "-", "--register", "find"]);
    let told = verdicts(&ran);
    assert!(told.iter().all(|verdict| verdict != "Turned"), "{told:?}");
    assert_eq!(told[20], "Neither");
    assert!(
        told[21..].iter().all(|verdict| verdict == "Straight"),
        "{told:?}"
    );
    assert!(
        told[..20].iter().all(|verdict| verdict == "Straight"),
        "{told:?}"
    );
}

#[test]
fn read_finds_the_register_of_a_stream() {
    let text = symbols(35, "4711").join("\n");
    let ran = run_with(text.as_bytes(), &["read", A, "-", "--register=find"]);
    assert_eq!(ran.status, 0, "{}", ran.out);
    let read = ran
        .out
        .lines()
        .filter(|line| !line.starts_with('#') && !line.is_empty());
    assert_eq!(read.collect::<Vec<_>>(), frames(35));
    assert!(ran
        .out
        .contains("# register before 4711, found from 32 monitored tones"));
    let text = symbols(11, "4711").join("\n");
    let ran = run_with(text.as_bytes(), &["read", A, "-", "--register=find"]);
    assert_eq!(ran.status, 33);
    let totals = "# 11 symbols: 0 done, 0 refused (first symbol 0), 11 without a register, register after not known";
    assert_eq!(ran.out.lines().last(), Some(totals));
}

#[test]
fn some_tones_of_several_symbols_are_a_perhaps() {
    let straight = symbols(31, "4711");
    for count in [11, 12, 31] {
        let wrong: Vec<String> = straight[..count]
            .iter()
            .map(|symbol| turned(symbol))
            .collect();
        for (symbols, word) in [
            (&straight[..count], "Perhaps straight"),
            (&wrong, "Perhaps turned"),
        ] {
            let ran = run_with(
                symbols.join("\n").as_bytes(),
                &["turn", A, "-", "--register=find"],
            );
            let word = if count < 12 { "Cannot tell" } else { word };
            assert_eq!(verdicts(&ran), vec![word; count]);
            assert_eq!(ran.status, if count < 12 { 33 } else { 36 });
            assert!(
                count < 12
                    || ran
                        .out
                        .contains("monitored tones of several symbols give if none")
            );
        }
    }
}

/// Where the trellis code tells, no count of tones makes a verdict less sure.
#[test]
fn an_odd_count_tells_however_many_symbols_there_are() {
    let tones = [equal(5, 2), vec![(7, 0, 512)]].concat();
    let set = tables("stream-odd.txt", "coded", 8, &tones);
    for count in [1, 11, 12, 31, 32] {
        let frames = vec!["05".to_string(); count];
        let text: String = symbols_of(&set, &frames, "4711").join("\n");
        let ran = run_with(text.as_bytes(), &["turn", &set, "-", "--register=find"]);
        assert_eq!(ran.status, 0, "{}", ran.out);
        let sure = ran.out.matches("Straight: ").count();
        assert_eq!(sure, count, "{}", ran.out);
    }
}

/// The register that is given is the one before a symbol that is missing: some first symbols look
/// turned by chance, but those after them contradict it.
#[test]
fn a_wrong_register_does_not_decide_on_a_stream() {
    let mut deceived = 0;
    for register in (1..=40).map(|number| (number * 209_701).to_string()) {
        let text = symbols(12, &register)[1..].join("\n");
        let words = ["turn", A, "-", "--register", &register];
        let ran = run_with(text.as_bytes(), &words);
        deceived += usize::from(verdicts(&ran)[0] == "Turned");
        assert!(ran.status != 0 && ran.status != 32, "{}", ran.out);
    }
    assert!(deceived > 3, "{deceived}");
}

/// The verdict on all symbols says on what condition it holds, until enough tones agree.
#[test]
fn the_totals_have_the_condition_too() {
    let symbols = symbols(32, "4711");
    for (count, condition) in [
        (2, ", if the register that was given is the writer's"),
        (31, ", if the register that was given is the writer's"),
        (32, ""),
    ] {
        let text = symbols[..count].join("\n");
        let ran = run_with(text.as_bytes(), &["turn", A, "-", "--register", "4711"]);
        let totals = format!("{count} symbols: {count} straight; in all: straight{condition}");
        assert_eq!(ran.out.lines().last(), Some(totals.as_str()));
        let words = ["turn", A, "-", "--register", "4711", "--json"];
        let ran = run_with(text.as_bytes(), &words);
        let holds = match condition.strip_prefix(", if ") {
            Some(condition) => format!("\"holds_if\": \"{condition}\"}}\n}}\n"),
            None => "\"holds_if\": null}\n}\n".to_string(),
        };
        assert!(ran.out.ends_with(&holds), "{}", ran.out);
    }
}
