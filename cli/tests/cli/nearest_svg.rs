//! `nearest --svg`: received points beside the decided ones.

use crate::run::{equal, numbers, tables, written};
use crate::svg::picture;

const A: &str = "examples/bench-a.txt";
const RECEIVED: &[u8] = b"-2,4\n-1,-3\n-3,2\n-2,0\n1,0\n1,1\n";

/// The parts of the paths of a class.
fn parts(svg: &str, class: &str) -> usize {
    let start = format!("<path class=\"{class}\" d=\"");
    let paths = svg.split(&start).skip(1);
    let parts = paths.map(|path| path.split('"').next().unwrap().matches('M').count());
    parts.sum()
}

#[test]
fn a_line_from_each_decided_point_to_the_received_one() {
    let svg = picture("nearest.svg", 0, &["nearest", A, "-"], RECEIVED);
    let caption = "nearest: L = 5 bits in 1 byte, register 8388607 before, 2097151 after; total 8 \
                   over 5 loaded tones";
    for words in [
        caption,
        "Received and decided points",
        "How far off",
        "half way to a neighbour on the grid",
        "by the filler bits",
    ] {
        assert!(svg.contains(words), "{words}");
    }
    // One tone is on its point; the legend has a line and a ring too.
    assert_eq!(
        (parts(&svg, "vector"), parts(&svg, "received")),
        (5 + 1, 6 + 1)
    );
    assert!(!svg.contains("farther out") && !svg.contains("\u{394}"));
}

#[test]
fn a_symbol_of_a_stream_is_named() {
    let words = ["nearest", A, "examples/bench-a-stream.csv"];
    let svg = picture("nearest-stream.svg", 0, &words, b"");
    assert!(svg.contains(">nearest: L = 5 bits in 1 byte, ") && svg.contains("total 0 over"));
}

#[test]
fn a_coordinate_beyond_the_range_is_shown() {
    let far = b"1,1\n1,1\n1,1\n1,-2000\n1,1\n1,1\n";
    let svg = picture("nearest-23.svg", 23, &["nearest", A, "-"], far);
    assert!(svg.contains("nearest: refused 23 RANGE at place 3 in t', sub-carrier 4, register"));
    assert!(svg.contains(">4 refused<") && svg.contains(">(1, -2000)<"));
    assert!(!svg.contains("How far off"));
}

#[test]
fn a_received_point_far_outside_is_an_arrow_with_its_numbers() {
    let far = b"-1,3\n-1,-1\n-3,1\n-1,-1\n1000,2\n1,1\n";
    let svg = picture("nearest-far.svg", 0, &["nearest", A, "-"], far);
    assert!(svg.contains("farther out") && svg.contains(">(1000, 2)<"));
    // The scale of the distances doubles.
    assert!(svg.contains(">511<"));
}

/// So many tones that each vector cannot be seen where it lies are laid over each other.
#[test]
fn full_sets_stay_readable_and_small() {
    let set = tables("nearest-full.txt", "uncoded", 4096, &equal(4096, 15));
    let hex: String = (0..7680)
        .map(|byte| format!("{:02x}", byte * 89 % 256))
        .collect();
    let symbol = written(&set, &hex, 1);
    for (size, most) in [(1, 30_000), (400, 130_000)] {
        let mut number = numbers(size);
        let mut noisy = |word: &str| {
            let noise = number(2 * size + 1) as i64 - size as i64;
            (word.trim().parse::<i64>().unwrap() + noise).to_string()
        };
        let mut received = String::new();
        for line in symbol.lines().skip(2) {
            let (x, y) = line.split('#').next().unwrap().split_once(',').unwrap();
            received += &format!("{},{}\n", noisy(x), noisy(y));
        }
        let words = ["nearest", &set, "-"];
        let svg = picture("nearest-full.svg", 0, &words, received.as_bytes());
        assert!(svg.len() < most, "{}", svg.len());
        assert!(
            svg.contains(">\u{394}X<") && svg.contains("\u{394}: seen from the decided points")
        );
        assert!(svg.contains("the largest of neighbours"));
    }
}

#[test]
fn sets_without_data_or_points_are_drawn() {
    let set = tables("nearest-silent.txt", "uncoded", 2, &[(1, 0, 0)]);
    let svg = picture("nearest-silent.svg", 0, &["nearest", &set, "-"], b"0,0");
    assert!(svg.contains("total 0 over 0 loaded tones"));
    let svg = picture("nearest-noise.svg", 0, &["nearest", &set, "-"], b"3,-2");
    assert!(svg.contains("silent, 1 tone") && svg.contains("silent, (0, 0)"));
    let set = tables("nearest-one.txt", "uncoded", 1, &[(0, 1, 1)]);
    let svg = picture("nearest-one.svg", 0, &["nearest", &set, "-"], b"0,2");
    assert!(svg.contains("1 bit, 1 tone"));
}
