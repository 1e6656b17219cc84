//! `--svg`: well-formed for this checker and, where python3 is installed, for another one; and of a
//! sensible size.

use crate::run::{equal, file, path, run, run_with, tables};
use std::fs;
use std::process::{Command, Stdio};

const A: &str = "examples/bench-a.txt";

/// Every element is closed in turn, and text has no loose sign.
pub fn well_formed(svg: &str) {
    let mut open = Vec::new();
    let mut rest = svg;
    while let Some((before, after)) = rest.split_once('<') {
        assert!(!before.contains('>'), "{before}");
        let (tag, after) = after.split_once('>').expect("a tag ends");
        let name = tag.split_whitespace().next().unwrap_or("");
        if let Some(closed) = name.strip_prefix('/') {
            assert_eq!(open.pop(), Some(closed));
        } else if !tag.ends_with('/') {
            open.push(name);
        }
        assert!(tag.matches('"').count() % 2 == 0, "{tag}");
        rest = after;
    }
    assert!(open.is_empty() && rest.trim().is_empty());
    python_agrees(svg);
}

fn python_agrees(svg: &str) {
    let read = "import sys, xml.dom.minidom as m; m.parse(sys.stdin.buffer)";
    let mut python = Command::new("python3");
    python
        .args(["-c", read])
        .stdin(Stdio::piped())
        .stdout(Stdio::null());
    let Ok(mut child) = python.spawn() else {
        return;
    };
    let mut input = child.stdin.take().unwrap();
    std::io::Write::write_all(&mut input, svg.as_bytes()).unwrap();
    drop(input);
    assert!(child.wait().unwrap().success());
}

/// Runs a call with `--svg` and hands back the picture.
pub fn picture(name: &str, status: i32, words: &[&str], input: &[u8]) -> String {
    let svg = path(name);
    let words = [words, &["--svg", svg.to_str().unwrap()]].concat();
    let ran = run_with(input, &words);
    assert_eq!(ran.status, status, "{}{}", ran.out, ran.err);
    assert!(ran.out.contains("picture written to "));
    let svg = fs::read_to_string(svg).unwrap();
    well_formed(&svg);
    svg
}

#[test]
fn encode_and_read_draw_the_same_points() {
    let encoded = picture("a-encode.svg", 0, &["encode", A, "-"], b"15");
    let read = picture("a-read.svg", 0, &["read", A, "examples/bench-a.csv"], b"");
    assert_eq!(encoded.replace("encode: ", "read: "), read);
    for words in [
        "1 bit, 2 tones",
        "2 bits, 1 tone",
        "monitored, 1 tone",
        ">3, 6<",
        "sub-carrier index",
        "Bit loading",
        "register 8388607 before, 2097151 after",
    ] {
        assert!(encoded.contains(words), "{words}");
    }
    assert!(!encoded.contains("class=\"refused\""));
}

#[test]
fn refused_points_are_drawn_and_shown() {
    let offgrid = b"1,1\n1,1\n1,1\n-1,-1\n1,-1\n99999,1";
    let svg = picture("a-13.svg", 13, &["read", A, "-"], offgrid);
    assert!(svg.contains("refused 13 OFFGRID at place 4 in t', sub-carrier 3,"));
    assert!(svg.contains("class=\"refused\""));
    let monitor = b"1,1\n1,1\n1,1\n1,1\n1,1\n1,1";
    let svg = picture("a-14.svg", 14, &["read", A, "-"], monitor);
    assert!(svg.contains("refused 14 MONITOR") && svg.contains("class=\"refused\""));
    let trellis = b"1,1\n1,1\n1,1\n-1,-1\n1,1\n-1,-1";
    let svg = picture("a-15.svg", 15, &["read", A, "-"], trellis);
    assert!(svg.contains("refused 15 TRELLIS at pair 1: sub-carriers 2, 3, 6, register 8388607"));
    // Three points, and the sign in the legend.
    assert_eq!(
        svg.matches("<rect").count() - svg.matches("class=\"frame\"").count(),
        3 + 1 + 2
    );
    for name in ["2 refused", "3 refused", "6 refused"] {
        assert!(svg.contains(&format!(">{name}<")), "{name}");
    }
    let silent = b"1,1\n1,1\n1,1\n1,1\n1,1\n1,1";
    let svg = picture(
        "c-13.svg",
        13,
        &["read", "examples/cannot-tell.txt", "-"],
        silent,
    );
    assert!(svg.contains("silent, 1 tone"));
}

#[test]
fn tables_that_are_refused_are_not_drawn() {
    let svg = path("not.svg");
    let words = ["read", A, "-", "--svg", svg.to_str().unwrap()];
    assert_eq!(run_with(b"1,1", &words).status, 10);
    assert!(!svg.exists());
}

#[test]
fn full_sets_stay_small() {
    let set = tables("svg-full.txt", "uncoded", 4096, &equal(4096, 15));
    let frame: String = (0..7680)
        .map(|byte| format!("{:02x}", byte * 89 % 256))
        .collect();
    let svg = picture("full.svg", 0, &["encode", &set, "-"], frame.as_bytes());
    assert!(svg.len() < 100_000, "{}", svg.len());
    // Every bit count from 0 to 15, and neighbours never alike.
    let tones: Vec<_> = (0..4096).map(|tone| (tone, tone % 16, 512)).collect();
    let set = tables("svg-mixed.txt", "coded", 4096, &tones);
    let bytes = (256 * 120 - (3840 - 128_usize).div_ceil(2) - 4).div_ceil(8);
    let svg = picture(
        "mixed.svg",
        0,
        &["encode", &set, "-"],
        "00".repeat(bytes).as_bytes(),
    );
    assert!(svg.len() < 250_000, "{}", svg.len());
    assert!(svg.contains("15 bits, 256 tones") && svg.contains("monitored, 256 tones"));
}

#[test]
fn the_smallest_sets_are_drawn_too() {
    let set = tables("svg-one.txt", "uncoded", 1, &[(0, 1, 1)]);
    assert!(picture("one.svg", 0, &["encode", &set, "-"], b"01").contains("1 bit, 1 tone"));
    let set = tables("svg-none.txt", "uncoded", 1, &[(0, 0, 0)]);
    let svg = picture("none.svg", 0, &["encode", &set, "-"], b"");
    assert!(svg.contains("every tone is silent"));
}

#[test]
fn strange_file_names_are_escaped() {
    let name = "<&\"'\u{1}\u{fffe}>.txt";
    let set = file(name, fs::read(crate::run::root().join(A)).unwrap());
    let svg = picture("strange.svg", 0, &["encode", &set, "-"], b"00");
    assert!(!svg.contains('\u{1}'));
    assert_eq!(run(&["check", &set]).status, 0);
}

/// The places and widths of the blocks of a path.
fn blocks(svg: &str, class: &str) -> Vec<(f64, f64)> {
    let start = format!("<path class=\"{class}\" d=\"");
    let data = svg.split(&start).last().unwrap().split('"').next().unwrap();
    let block = |block: &str| {
        let (left, rest) = block.split_once(' ').unwrap();
        let width = rest.split('h').nth(1).unwrap().split('v').next().unwrap();
        (left.parse().unwrap(), width.parse().unwrap())
    };
    data.split('M').skip(1).map(block).collect()
}

#[test]
fn a_lone_tone_among_many_is_seen() {
    let tones = [(0, 1, 512), (1000, 8, 512), (4095, 15, 512)];
    let set = tables("svg-lone.txt", "uncoded", 4096, &tones);
    let svg = picture("lone.svg", 0, &["encode", &set, "-"], b"000000");
    let bars = blocks(&svg, "area");
    assert_eq!(bars.len(), 3);
    // Wide enough, and within the frame, whose line would hide them.
    for (left, width) in bars {
        assert!(
            width >= 2.0 && left >= 87.0 && left + width <= 927.0,
            "{left} {width}"
        );
    }
}

#[test]
fn a_refused_tone_is_named_where_others_share_its_point() {
    // 20 monitored tones; the points of 19 are right.
    let tones: Vec<_> = (0..20).map(|tone| (tone, 0, 512)).collect();
    let set = tables("svg-shared.txt", "uncoded", 64, &tones);
    let points = run_with(b"", &["encode", &set, "-"]).out;
    let wrong = |line: &str| match line.contains("sub-carrier 5,") {
        true => "1,1".to_string(),
        false => line.to_string(),
    };
    let points: Vec<String> = points.lines().map(wrong).collect();
    let points = points.join("\n");
    let svg = picture("shared.svg", 14, &["read", &set, "-"], points.as_bytes());
    assert!(svg.contains("refused 14 MONITOR at place 5 in t', sub-carrier 5,"));
    assert!(svg.contains(">5 refused, +"), "no others at (1, 1)?");
    // The bit loading marks it too: sub-carrier 5 of 64, and its number.
    assert!(svg.contains("class=\"mark\"") && svg.contains(">5<"));
}

#[test]
fn a_point_far_outside_is_clipped_with_its_numbers() {
    let points = b"40000,-32768\n1,1\n1,1\n-1,-1\n1,1\n1,1";
    let far = picture("far.svg", 13, &["read", A, "-"], points);
    assert!(far.contains(">(40000, -32768)<") && far.contains(">7 refused<"));
    assert!(far.contains("farther out, at these numbers"));
    // The 16 possible points of its panel lie as far apart as in a picture without it.
    let near = picture("near.svg", 0, &["read", A, "examples/bench-a.csv"], b"");
    let possible = |svg: &str| -> Vec<String> {
        let paths = svg.split("<path class=\"could\" d=\"").skip(1);
        paths
            .map(|path| path.split('"').next().unwrap().to_string())
            .collect()
    };
    assert_eq!(possible(&far), possible(&near));
    assert!(!near.contains("farther out"));
    // One that is not far is drawn where it lies.
    let points = b"5,5\n1,1\n1,1\n-1,-1\n1,1\n1,1";
    let svg = picture("five.svg", 13, &["read", A, "-"], points);
    assert!(!svg.contains("farther out") && svg.contains(">7 refused<"));
}

#[test]
fn a_long_path_keeps_the_name_of_the_file() {
    let folder = path(&"f".repeat(100));
    let _ = fs::create_dir(&folder);
    let set = folder.join("bench-a-of-the-cabinet.txt");
    fs::copy(crate::run::root().join(A), &set).unwrap();
    let svg = picture(
        "long.svg",
        0,
        &["encode", set.to_str().unwrap(), "-"],
        b"00",
    );
    assert!(svg.contains("/bench-a-of-the-cabinet.txt: coded, 6 tones of 8 sub-carriers"));
    let name = format!("begin{}end.txt", "x".repeat(100));
    let set = folder.join(name);
    fs::copy(crate::run::root().join(A), &set).unwrap();
    let svg = picture(
        "longer.svg",
        0,
        &["encode", set.to_str().unwrap(), "-"],
        b"00",
    );
    assert!(svg.contains(">beginxx") && svg.contains("xxend.txt: coded"));
}

#[test]
fn the_legend_lists_what_is_drawn() {
    let data = "point with data";
    let set = tables("svg-data.txt", "uncoded", 2, &[(0, 2, 512), (1, 2, 512)]);
    let svg = picture("data.svg", 0, &["encode", &set, "-"], b"00");
    assert!(svg.contains("2 tones of 2 sub-carriers") && svg.contains(data));
    for absent in [">refused<", "farther", "silent, ", "not in the tone table"] {
        assert!(!svg.contains(absent), "{absent}");
    }
    // The strip's name at its left, and no sign for it.
    assert_eq!(svg.matches(">monitored<").count(), 1);
    let set = tables("svg-monitored.txt", "uncoded", 1, &[(0, 0, 512)]);
    let svg = picture("monitored.svg", 0, &["encode", &set, "-"], b"");
    assert!(!svg.contains(data) && !svg.contains(">data<"));
    assert_eq!(svg.matches(">monitored<").count(), 3);
    assert!(svg.contains("1 tone of 1 sub-carrier<"));
    // Too many possible points to draw them.
    let set = tables("svg-fifteen.txt", "uncoded", 1, &[(0, 15, 512)]);
    let svg = picture("fifteen.svg", 0, &["encode", &set, "-"], b"0000");
    assert!(svg.contains(data) && !svg.contains("possible point"));
    let silent = b"1,1\n1,1\n1,1\n1,1\n1,1\n1,1";
    let words = ["read", "examples/cannot-tell.txt", "-"];
    let svg = picture("silent-off.svg", 13, &words, silent);
    assert!(svg.contains("silent, not at (0, 0)"));
}

#[test]
fn turn_draws_the_points_as_they_came() {
    let turned = "examples/bench-a-turned.csv";
    let svg = picture("turned.svg", 36, &["turn", A, turned], b"");
    let caption = "turn: perhaps turned; as they came refused, 14 MONITOR at place 3 in t', \
                   sub-carrier 4<";
    assert!(svg.contains(caption) && svg.contains(">4 refused<"));
    let words = ["turn", A, "examples/bench-a.csv", "--register=8388607"];
    let svg = picture("straight.svg", 0, &words, b"");
    assert!(svg.contains(">turn: straight<") && !svg.contains("class=\"refused\""));
}

#[test]
fn of_a_stream_the_first_refused_symbol_is_drawn() {
    let words = ["read", A, "examples/bench-a-stream.csv"];
    let svg = picture("stream.svg", 13, &words, b"");
    assert!(svg.contains("read, symbol 1: refused 13 OFFGRID at place 0"));
    let words = ["encode", A, "examples/bench-a-stream.hex"];
    let svg = picture("stream-0.svg", 0, &words, b"");
    assert!(svg.contains(">encode: L = 5 bits in 1 byte, register 8388607 before"));
}
