//! What `nearest` refuses, and how it says so.

use crate::json::{answer, head, object, text, Value};
use crate::refusals::refused;
use crate::run::run_with;

const A: &str = "examples/bench-a.txt";

#[test]
fn json_of_a_refusal() {
    let ran = run_with(
        b"1,1\n1,1\n1,1\n1,-2000\n1,1\n1,1",
        &["nearest", A, "-", "--json"],
    );
    let told = object(&ran);
    let reset = Value::Number(8_388_607);
    assert_eq!(head(&told), answer(23, "RANGE", 3, 0, reset));
    assert_eq!(told["place_is"], text("place in t'"));
    assert_eq!(
        [&told["sub_carrier"], &told["line"]],
        [&Value::Number(4), &Value::Number(4)]
    );
    assert!(!told.contains_key("frame") && !told.contains_key("total"));
}

#[test]
fn range() {
    // Silent and monitored tones are looked at too; the first place counts, whichever coordinate.
    for (points, place, point) in [
        ("1024,0\n1,1\n1,1\n1,1\n1,1\n0,-9999", 0, "(1024, 0)"),
        ("1,1\n1,-1024\n1,1\n1,1\n1,1\n1,1", 1, "(1, -1024)"),
        ("1,1\n1,1\n1,1\n1,32768\n1,1\n1,1", 3, "(1, 32768)"),
        ("1,1\n1,1\n1,1\n1,1\n1,1\n-99999,7", 5, "(-99999, 7)"),
    ] {
        for set in [A, "examples/cannot-tell.txt"] {
            let ran = run_with(points.as_bytes(), &["nearest", set, "-"]);
            let tone = [7, 5, 2, 4, 3, 6][place];
            let line = place + 1;
            let place = format!(
                "at place {place} in t', sub-carrier {tone}, line {line} of standard input"
            );
            let sentence = format!("The point {point} has a coordinate that is not from -1023");
            refused(&ran, 23, "RANGE", &place, &sentence);
        }
    }
    let edges = b"1023,-1023\n-1023,1023\n1023,1023\n-1023,-1023\n1,1\n1,1";
    assert_eq!(run_with(edges, &["nearest", A, "-"]).status, 0);
}

/// ROOM before FRAME before SEED before RANGE.
#[test]
fn the_order_of_refusals_of_nearest() {
    let (five, far) = ("1,1\n".repeat(5), "2000,1\n".repeat(6));
    for (points, start, register, number) in [
        (&five, "8", "0", 10),
        (&far, "8", "0", 11),
        (&far, "7", "0", 12),
        (&far, "7", "1", 23),
    ] {
        let words = ["nearest", A, "-", "--start", start, "--register", register];
        assert_eq!(run_with(points.as_bytes(), &words).status, number);
    }
}

/// The number that the sentence names.
#[test]
fn no_constellation_goes_beyond_191() {
    let mut farthest = 0;
    for bits in 1..=15 {
        for label in 0..1 << bits {
            let point = clevisroot_sys::map_label(bits, label);
            farthest = farthest.max(point.x.abs()).max(point.y.abs());
        }
    }
    assert_eq!(farthest, 191);
}
