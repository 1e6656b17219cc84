//! `report --html`: one page that needs nothing else, a sheet a pair, in black and white.

use crate::run::{path, run_with};
use crate::svg::well_formed;
use std::fs;

/// The page of these logs, one of them from standard input.
fn page(name: &str, logs: &[&str], log: &str) -> String {
    let html = path(name);
    let html = html.to_str().unwrap();
    let words = [&["report"], logs, &["--html", html]].concat();
    let ran = run_with(log.as_bytes(), &words);
    assert_eq!((ran.status, ran.err.as_str()), (0, ""));
    let note = format!("page written to {html}");
    assert_eq!(ran.out.lines().last(), Some(note.as_str()));
    let page = fs::read_to_string(html).unwrap();
    sound(&page);
    page
}

/// Every tag is closed, and nothing is fetched or run.
fn sound(page: &str) {
    let body = page.strip_prefix("<!DOCTYPE html>\n").expect("a doctype");
    well_formed(body);
    let lower = page.to_lowercase();
    for word in [
        "http",
        "<script",
        "javascript",
        "@import",
        "<link",
        "<img",
        "<iframe",
        "src=",
        "href=",
        "@font-face",
        " onload",
        "<!--",
    ] {
        // Names are escaped, so that a tag in one is none.
        assert!(!lower.contains(word), "{word}");
    }
    let urls = lower.matches("url(").count();
    assert_eq!(urls, lower.matches("url(#hatch)").count());
}

/// The sheet of each pair.
fn sheets(page: &str) -> Vec<&str> {
    page.split("<section").skip(1).collect()
}

/// The parts of a path of this class in the strip; the one in the legend is left out.
fn bars<'a>(sheet: &'a str, class: &str) -> Vec<&'a str> {
    let start = format!("<path class=\"{class}\" d=\"");
    let mut paths = sheet.split(start.as_str()).skip(1);
    let drawn = match paths.clone().count() {
        2 => paths.next().unwrap(),
        _ => return Vec::new(),
    };
    let data = drawn.split('"').next().unwrap();
    data.split('M').skip(1).collect()
}

#[test]
fn a_sheet_a_pair() {
    let logs = [
        "examples/pair-7.log",
        "examples/pair-8.log",
        "examples/pair-9.log",
    ];
    let page = page("three.html", &logs, "");
    let sheets = sheets(&page);
    assert_eq!(sheets.len(), 3);
    for (sheet, words) in sheets.iter().zip([
        "Clean in these 8 symbols: each was read as it was sent.",
        "3 of 12 symbols were refused, the first of them symbol 4 with 15 TRELLIS",
        "1 of 3 symbols was refused, symbol 1 with 13 OFFGRID",
    ]) {
        assert!(sheet.contains(words), "{sheet}");
        for part in [
            "<h1>Kiln Lane, pair ",
            "<th>symbols</th>",
            "<th>refused</th>",
            "<th>wrong frames</th>",
            "<th>wrong bits</th>",
            "<th>first refused</th>",
            "<th>wrong-bit rate</th>",
            "<svg ",
            "Refusals",
            "examples/bench-a.txt",
            "coded, G = 8, NSC = 6",
            "Place",
            "Date",
            "Signature of the jointer",
            "<footer>",
        ] {
            assert!(sheet.contains(part), "{part}");
        }
    }
    assert!(page.contains("break-after:page") && page.contains("@page{"));
    assert!(sheets[1].contains("<tr><td>14 MONITOR</td><td>2</td><td>a monitored tone has"));
    assert!(!sheets[1].to_lowercase().contains("clean"));
}

/// A log that names files has no entries of its own.
#[test]
fn the_footer_says_what_the_figures_are_of() {
    let logs = ["examples/pair-8.log", "examples/pair-9.log"];
    let page = page("footers.html", &logs, "");
    let sheets = sheets(&page);
    for (sheet, words) in sheets.iter().zip([
        "entries in the log; nothing is known of what is not in it.",
        "symbols in the files above; nothing is known of what is not in them.",
    ]) {
        let footer = format!(
            "<footer>The five figures are counted by the library of clevisroot 0.1.0, which is \
             proved. They are those of the {words}</footer>"
        );
        assert!(sheet.contains(&footer), "{sheet}");
    }
}

#[test]
fn what_cannot_show_a_turned_clip_is_in_bold() {
    let log = "tables: examples/cannot-tell.txt\n15 15\n";
    let bold = page("bold.html", &["-", "examples/pair-7.log"], log);
    let sheets = sheets(&bold);
    let strong =
        "<strong>This table set cannot show by a refusal that a clip is the wrong way round";
    assert!(sheets[0].contains(strong), "{}", sheets[0]);
    assert!(!sheets[1].contains("<strong>"));
    let unknown = page("unknown.html", &["-"], "15 15\n");
    assert!(unknown.contains("it is not known whether") && !unknown.contains("<strong>"));
}

#[test]
fn names_are_escaped() {
    let log = "pair: <script>alert(\"1\")</script> & <b> \u{1} \u{e4}\n15 15\n";
    let page = page("escaped.html", &["-"], log);
    let name = "&lt;script&gt;alert(&quot;1&quot;)&lt;/script&gt; &amp; &lt;b&gt; \\u{1} \u{e4}";
    assert!(page.contains(&format!("<h1>{name}</h1>")), "{page}");
    assert!(page.contains(&format!("<title>Pair report: {name}</title>")));
}

#[test]
fn the_heading_of_a_long_name_is_cut() {
    let long = "Kiln Lane/".repeat(20);
    let page = page("heading.html", &["-"], &format!("pair: {long}\n15 15\n"));
    let heading = format!("<h1 class=\"long\">{}\u{2026}</h1>", &long[..120]);
    assert!(page.contains(&heading), "{page}");
}

#[test]
fn the_rate_of_unknown_l_is_marked() {
    let page = page(
        "marked.html",
        &["-", "examples/pair-8.log"],
        "15 14\n15 15\n",
    );
    let sheets = sheets(&page);
    assert!(sheets[0].contains("<td>\u{2248} 6.2e-2</td>"), "{page}");
    assert!(sheets[0].contains("Wrong bits: 1 of 16 bits (8 a byte, L is not known); only"));
    assert!(sheets[1].contains("<td>8.9e-2</td>"), "{page}");
    assert!(sheets[1].contains("Wrong bits: 4 of 45 bits (5 a frame); only"));
}

#[test]
fn the_page_needs_no_colour() {
    let page = page("grey.html", &["examples/pair-8.log"], "");
    let colours = page.split('#').skip(1).filter_map(|rest| {
        let digits: String = rest.chars().take_while(char::is_ascii_hexdigit).collect();
        (digits.len() == 3).then_some(digits)
    });
    let colours: Vec<String> = colours.collect();
    assert!(colours.len() > 5);
    for colour in colours {
        let letters = colour.as_bytes();
        assert!(
            letters.iter().all(|letter| *letter == letters[0]),
            "#{colour}"
        );
    }
    // Height tells the columns apart, and the legend names them.
    let sheet = sheets(&page)[0];
    for (class, count, height) in [
        ("refused", 3, "v50"),
        ("wrong", 2, "v25"),
        ("sent", 7, "v3"),
    ] {
        let bars = bars(sheet, class);
        assert_eq!(bars.len(), count, "{class}");
        assert!(bars.iter().all(|bar| bar.contains(height)), "{bars:?}");
    }
    for words in [
        "refused",
        "read with wrong bits",
        "read as it was sent",
        "a column a symbol",
    ] {
        assert!(sheet.contains(words), "{words}");
    }
    assert!(page.contains(".wrong{fill:url(#hatch)"));
}

#[test]
fn a_lone_refusal_among_many_symbols_is_seen() {
    for lone in [0, 1, 31_000, 65_534] {
        let line = |symbol: usize| match symbol {
            _ if symbol == lone => "15 refused 15\n",
            _ if symbol == lone + 400 => "15 14\n",
            _ => "15 15\n",
        };
        let log: String = (0..65_535).map(line).collect();
        let page = page("lone.html", &["-"], &log);
        let sheet = sheets(&page)[0];
        assert_eq!(bars(sheet, "refused").len(), 1, "{lone}");
        assert_eq!(bars(sheet, "wrong").len(), usize::from(lone < 65_000));
        assert!(sheet.contains("a column shows the worst of up to 274 symbols"));
        assert!(page.len() < 20_000, "{}", page.len());
    }
}

#[test]
fn numbers_stand_under_the_strip() {
    for (symbols, ticks) in [
        (1, vec!["0"]),
        (12, vec!["0", "2", "10"]),
        (1000, vec!["0", "100", "900"]),
    ] {
        let page = page("ticks.html", &["-"], &"15 15\n".repeat(symbols));
        for tick in ticks {
            let label = format!("class=\"tick\">{tick}</text>");
            assert!(page.contains(&label), "{symbols}: {tick}");
        }
        assert!(page.matches("class=\"tick\"").count() <= 12);
    }
    // No symbols, no strip.
    assert!(!page("empty.html", &["-"], "").contains("class=\"tick\""));
}

#[test]
fn the_same_logs_give_the_same_page() {
    let logs = ["examples/pair-8.log", "examples/pair-9.log"];
    assert_eq!(
        page("same-1.html", &logs, ""),
        page("same-2.html", &logs, "")
    );
}

#[test]
fn many_refusals_are_printed_small() {
    let log: String = (1..60)
        .map(|number| format!("00 refused {number}\n"))
        .collect();
    let many = page("many.html", &["-"], &log);
    assert!(many.contains("<section class=\"many\">"));
    assert_eq!(many.matches("<tr><td>").count(), 18 + 1);
    assert!(page("few.html", &["examples/pair-8.log"], "").contains("<section>"));
}

/// A pair without a log has no log to speak of.
#[test]
fn the_page_of_points() {
    let words = [
        "--tables",
        "examples/bench-a.txt",
        "--sent",
        "examples/bench-a.hex",
        "--points",
        "examples/bench-a.csv",
    ];
    let page = page("points.html", &words, "");
    assert!(page.contains("those of the symbols in the files above; nothing is known"));
    for row in [
        "<th>points that came</th><td>examples/bench-a.csv</td>",
        "<td>8388607, its value at reset, for none was given</td>",
    ] {
        assert!(page.contains(row), "{row}");
    }
}
