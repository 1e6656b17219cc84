//! `nearest`: received points that are off the grid.

use crate::json::{object, Value};
use crate::run::{
    at, equal, file, numbers, path, result, run, run_with, symbols_of, tables, turned, written, Ran,
};
use std::collections::BTreeMap;
use std::fs;

const A: &str = "examples/bench-a.txt";
const LARGE: &str = "examples/vdsl2-4096.txt";

type Object = BTreeMap<String, Value>;

/// The points of a symbol, remarks and header left out.
fn points(symbol: &str) -> Vec<(i64, i64)> {
    let lines = symbol.lines().map(|line| line.split('#').next().unwrap());
    let pairs = lines.filter_map(|line| line.split_once(','));
    let number = |word: &str| word.trim().parse::<i64>().ok();
    pairs
        .filter_map(|(x, y)| Some((number(x)?, number(y)?)))
        .collect()
}

fn csv(points: &[(i64, i64)]) -> String {
    let line = |(x, y): &(i64, i64)| format!("{x},{y}\n");
    points.iter().map(line).collect()
}

/// The points with noise of this size at most.
fn noisy(points: &[(i64, i64)], size: u64, seed: u64) -> Vec<(i64, i64)> {
    let mut number = numbers(seed);
    let mut noise = || number(2 * size + 1) as i64 - size as i64;
    let mut moved = |value: i64| (value + noise()).clamp(-1023, 1023);
    points.iter().map(|&(x, y)| (moved(x), moved(y))).collect()
}

fn squared_distance(one: (i64, i64), other: (i64, i64)) -> i64 {
    (one.0 - other.0).pow(2) + (one.1 - other.1).pow(2)
}

fn number(object: &Object, key: &str) -> i64 {
    match &object[key] {
        Value::Number(number) => *number,
        other => panic!("{key}: {other:?}"),
    }
}

fn objects(value: &Value) -> Vec<&Object> {
    let Value::List(list) = value else {
        panic!("no list")
    };
    list.iter().map(inner).collect()
}

fn inner(value: &Value) -> &Object {
    match value {
        Value::Object(object) => object,
        other => panic!("no object: {other:?}"),
    }
}

fn nearest(set: &str, received: &str, more: &[&str]) -> Ran {
    let words = [&["nearest", set, "-"], more].concat();
    run_with(received.as_bytes(), &words)
}

#[test]
fn the_table_has_the_farthest_first() {
    let received = "-2,4\n-1,-3\n-3,2\n-2,0\n1,0\n-1,2\n";
    let ran = nearest(A, received, &[]);
    assert_eq!((ran.status, ran.err.as_str()), (0, ""));
    let header =
        "# sub-carrier  bits  place in t'  received        decided       squared distance\n";
    assert_eq!(
        ran.out,
        "# 0 DONE: L = 5 bits in 1 byte, register after 2097151\n\
         # total 13: 5 of 5 loaded tones are off\n"
            .to_string()
            + header
            + "#           6     1            5  (-1, 2)         (1, 1)                       5\n\
               #           5     2            1  (-1, -3)        (-1, -1)                     4\n\
               #           7     4            0  (-2, 4)         (-1, 3)                      2\n\
               #           2     3            2  (-3, 2)         (-3, 1)                      1\n\
               #           3     1            4  (1, 0)          (1, 1)                       1\n\
               # 0 of 1 monitored tone is nearest to the point of register 8388607: see whether \
               the register is the writer's\n\
               15\n"
    );
    let all = nearest(A, received, &["--all"]).out;
    let places: Vec<&str> = all.lines().skip(3).take(5).collect();
    let places = places.iter().map(|line| line[21..34].trim());
    assert_eq!(places.collect::<Vec<_>>(), ["0", "1", "2", "4", "5"]);
}

#[test]
fn exact_points_are_read_as_by_read() {
    for start in ["0", "1", "7"] {
        for (set, size, frame) in [(A, 5_usize, 0x15_u16), ("examples/five-twos.txt", 3, 5)] {
            let bytes = (u32::from(frame) << start.parse::<u32>().unwrap()).to_le_bytes();
            let length = (start.parse::<usize>().unwrap() + size).div_ceil(8);
            let hex: String = bytes[..length].iter().map(|b| format!("{b:02x}")).collect();
            let symbol = at(start, "encode", set, &hex).out;
            let (read, found) = (
                at(start, "read", set, &symbol),
                at(start, "nearest", set, &symbol),
            );
            assert_eq!((found.status, result(&found)), (0, result(&read)), "{set}");
            assert_eq!(found.line(0), read.line(0));
            assert!(found
                .line(1)
                .starts_with("# total 0: 0 of 5 loaded tones are off"));
        }
    }
    let symbol = written(LARGE, &"a5".repeat(1822), 4711);
    let found = nearest(LARGE, &symbol, &["--register=4711"]);
    assert_eq!(result(&found).concat(), "a5".repeat(1822));
    assert!(found.line(1).starts_with("# total 0: 0 of 2642"));
    assert_eq!(
        found.line(2),
        "# 40 of 40 monitored tones are nearest to the point of register 4711"
    );
}

/// No frame has a smaller total, and what is said of the tones adds up to it.
#[test]
fn every_frame_of_small_tables_is_tried() {
    let tones = [(1, 1, 512), (3, 3, 512), (0, 0, 0), (2, 1, 512)];
    let uncoded = tables("nearest-uncoded.txt", "uncoded", 4, &tones);
    for (set, loaded) in [(A, &[0, 1, 2, 4, 5][..]), (&uncoded, &[0, 1, 3])] {
        let hex: Vec<String> = (0..32).map(|frame| format!("{frame:02x}")).collect();
        let symbols = symbols_of(set, &hex, "8388607");
        let symbols: Vec<_> = symbols.iter().map(|symbol| points(symbol)).collect();
        let received = |k: usize| noisy(&symbols[k % 32], [1, 3, 9, 1023][k % 4], k as u64);
        let received: Vec<_> = (0..128).map(received).collect();
        let stream: Vec<String> = received.iter().map(|list| csv(list)).collect();
        let told = object(&nearest(set, &stream.join("\n"), &["--json"]));
        let told = objects(&told["symbols"]);
        assert_eq!(told.len(), received.len());
        for (told, received) in told.iter().zip(&received) {
            assert_nearest(told, received, &symbols, loaded);
        }
    }
}

/// The answer for received points, against the symbols of all frames.
fn assert_nearest(
    told: &Object,
    received: &[(i64, i64)],
    symbols: &[Vec<(i64, i64)>],
    loaded: &[usize],
) {
    let off = |symbol: &[(i64, i64)], k: usize| squared_distance(symbol[k], received[k]);
    let total_of =
        |symbol: &Vec<(i64, i64)>| -> i64 { loaded.iter().map(|&k| off(symbol, k)).sum() };
    let total = number(told, "total");
    assert_eq!(Some(total), symbols.iter().map(total_of).min());
    let Value::Text(frame) = &told["frame"] else {
        panic!("no frame")
    };
    let decided = &symbols[usize::from_str_radix(frame, 16).unwrap()];
    assert_eq!(total_of(decided), total, "{frame}: {received:?}");
    let tones = objects(&told["loaded"]);
    assert_eq!(tones.len(), loaded.len());
    for (tone, &k) in tones.iter().zip(loaded) {
        assert_eq!(number(tone, "place"), k as i64);
        let point = |x, y| (number(tone, x), number(tone, y));
        assert_eq!(point("x", "y"), received[k]);
        assert_eq!(point("decided_x", "decided_y"), decided[k]);
        assert_eq!(number(tone, "squared_distance"), off(decided, k));
    }
}

#[test]
fn small_noise_on_many_tones_is_taken_off() {
    let set = tables("nearest-many.txt", "uncoded", 300, &equal(300, 6));
    let hex = "c35a19".repeat(75);
    let symbol = points(&written(&set, &hex, 1));
    // Less than half way to a neighbour; every tenth tone is off.
    let mut received = symbol.clone();
    received
        .iter_mut()
        .step_by(10)
        .for_each(|point| point.0 += 1);
    received[7].1 += 700;
    let found = nearest(&set, &csv(&received), &["--out", "/dev/null"]);
    assert_eq!(found.status, 0, "{}", found.out);
    assert!(found.line(1).ends_with(": 31 of 300 loaded tones are off"));
    assert!(found
        .line(3)
        .starts_with("          7     6            7  ("));
    // The header, the ten farthest, and what is left.
    assert_eq!(
        found.line(13),
        "and 21 more that are off, by 1 or less; --all shows them"
    );
    let all = nearest(&set, &csv(&received), &["--all"]).out;
    assert_eq!(all.lines().filter(|line| line.contains(", ")).count(), 301);
}

#[test]
fn a_stream_adds_up_each_tone() {
    let symbols = symbols_of(A, &["15".to_string(), "00".to_string()], "8388607");
    let mut lists: Vec<_> = symbols.iter().map(|symbol| points(symbol)).collect();
    lists[0][0].0 += 1;
    lists[1][0].0 += 1;
    lists[1][2].1 += 1;
    let stream = format!("{}\n1,1\n\n{}", csv(&lists[0]), csv(&lists[1]));
    let ran = nearest(A, &stream, &[]);
    assert_eq!((ran.status, result(&ran)), (10, vec!["15", "00"]));
    let last: Vec<&str> = ran.out.lines().rev().take(5).collect();
    assert_eq!(
        last,
        [
            "#           2     3            2                         1        1",
            "#           7     4            0                         2        1",
            "# sub-carrier  bits  place in t'  sum of squared distances  largest",
            "# total 3 over 2 symbols: 2 of 5 loaded tones are off",
            "# 3 symbols: 2 done, 1 refused (10 ROOM 1, first symbol 1), register after 524287",
        ]
    );
    let told = object(&nearest(A, &stream, &["--json"]));
    let totals = inner(&told["totals"]);
    assert_eq!(number(totals, "total"), 3);
    let tones = objects(&totals["loaded"]);
    let sums = tones
        .iter()
        .map(|tone| number(tone, "sum_of_squared_distances"));
    assert_eq!(sums.collect::<Vec<_>>(), [2, 0, 1, 0, 0]);
    let stopped = nearest(A, &stream, &["--stop"]);
    assert!(stopped.out.contains("# 2 symbols: 1 done, 1 refused"));
}

#[test]
fn the_result_goes_to_a_file_that_encode_takes() {
    let out = path("nearest.hex");
    let out = out.to_str().unwrap();
    let received = file("nearest.csv", "-2,4\n-1,-3\n-3,2\n-2,0\n1,0\n-1,2\n");
    let ran = run(&["nearest", A, &received, "--start=6", "--out", out]);
    assert_eq!(
        ran.line(0),
        "0 DONE: L = 5 bits from bit 6 on, in 2 bytes, register after 2097151"
    );
    assert_eq!(
        ran.out.lines().last().unwrap(),
        format!("result written to {out}")
    );
    assert_eq!(fs::read_to_string(out).unwrap(), "4005\n");
    assert_eq!(run(&["encode", A, out, "--start=6"]).status, 0);
}

/// A turned symbol has a total of 0 too, as another frame: only the monitored tone tells.
#[test]
fn monitored_tones_are_told_apart_from_the_total() {
    let told = |ran: &Ran| ran.out.lines().rev().nth(1).unwrap().to_string();
    let symbol = written(A, "15", 8_388_607);
    let straight = nearest(A, &symbol, &[]);
    assert!(told(&straight).ends_with("is nearest to the point of register 8388607"));
    let wrong = nearest(A, &turned(&symbol), &[]);
    assert!(wrong.line(1).starts_with("# total 0:") && !wrong.out.ends_with("\n15\n"));
    assert!(told(&wrong).contains("the clips may be the wrong way round"));
    let other = nearest(
        A,
        &symbol.replace("-1,-1     # place 3", "1,-1#"),
        &["--json"],
    );
    let other = object(&other);
    let monitored = inner(&other["monitored"]);
    let counts = ["tones", "agree", "opposite"].map(|key| number(monitored, key));
    assert_eq!(counts, [1, 0, 0]);
}

/// Sub-carrier 5 is nearest to (1, -1), and no frame with that point is as near.
#[test]
fn coded_the_trellis_decides() {
    let ran = nearest(A, "-2,4\n1,-3\n-3,2\n-1,-2\n1,0\n0,2\n", &[]);
    let row = "#           5     2            1  (1, -3)         (-1, -1)                     8";
    assert_eq!((ran.line(3), result(&ran)), (row, vec!["15"]));
}
