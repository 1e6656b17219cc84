//! `--json` of `clip`.

use crate::json::{head, inner, object, text, Value};
use crate::run::{example, run_with};
use std::collections::BTreeMap;

const SET: &str = "examples/clip.txt";
const REGISTER: [&str; 2] = ["--register", "4711"];

fn json(set: &str, points: &str, words: &[&str]) -> BTreeMap<String, Value> {
    let words = [&["clip", set, "-", "--json"], words].concat();
    object(&run_with(points.as_bytes(), &words))
}

#[test]
fn each_answer() {
    for (name, verdict, sure) in [
        ("straight", "straight", true),
        ("turned", "turned", true),
        ("quarter", "quarter left", true),
        ("neither", "neither", false),
    ] {
        let json = json(SET, &example(&format!("clip-{name}.csv")), &REGISTER);
        let [number, place, register] = [0, 0, 4711].map(Value::Number);
        assert_eq!(
            head(&json),
            [number, text("DONE"), place, Value::Null, register]
        );
        assert_eq!(json["command"], text("clip"));
        assert_eq!(json["verdict"], text(verdict));
        assert_eq!(json["sure"], Value::Flag(sure));
    }
}

/// The same sentence as in the text, where a refusal's is the third line, and the same status.
#[test]
fn the_sentence_and_the_status() {
    const A: &str = "examples/bench-a.txt";
    let [straight, turned, quarter, neither] = ["straight", "turned", "quarter", "neither"]
        .map(|name| example(&format!("clip-{name}.csv")));
    let (even, odd) = (example("cannot-tell.csv"), example("five-twos-turned.csv"));
    let (given, none): (&[&str], &[&str]) = (&REGISTER, &[]);
    for (set, points, words, status) in [
        (SET, straight.as_str(), given, 0),
        (SET, &turned, given, 32),
        (SET, &quarter, given, 37),
        (SET, &neither, given, 34),
        (SET, &straight, none, 36),
        (SET, &"0,0\n".repeat(8), given, 34),
        (A, &example("bench-a.csv"), none, 36),
        (A, &example("bench-a-turned.csv"), none, 36),
        ("examples/cannot-tell.txt", &even, given, 33),
        ("examples/five-twos.txt", &odd, given, 33),
        (SET, "1,1", given, 10),
        (SET, &straight, &["--register", "0"], 12),
    ] {
        let words = [&["clip", set, "-"], words].concat();
        let plain = run_with(points.as_bytes(), &words);
        let json = run_with(points.as_bytes(), &[&words[..], &["--json"]].concat());
        assert_eq!(
            (plain.status, json.status),
            (status, status),
            "{}",
            json.out
        );
        let line = if status < 32 && status > 0 { 2 } else { 0 };
        assert_eq!(object(&json)["sentence"], text(plain.line(line)));
    }
}

#[test]
fn what_it_rests_on() {
    let condition =
        "the tables and the register that were given are the writer's and the one point that was looked at \
                     came as it was written but for a turn";
    let condition = text(condition);
    let theorems = ["clip-of-written", "clip-of-turned", "clip-of-quarter"];
    let theorems = Value::List(theorems.map(text).into());
    for name in ["straight", "turned", "quarter"] {
        let json = json(SET, &example(&format!("clip-{name}.csv")), &REGISTER);
        let ground = inner(&json, "rests_on");
        assert_eq!(ground["holds_if"], condition);
        assert_eq!(ground["theorems"], theorems);
        assert_eq!(ground["register"], Value::Number(4711));
        assert_eq!(ground["register_is"], text("given"));
        assert_eq!(ground["monitored_tones"], Value::Number(1));
        assert_eq!(ground["wrong_register_alike_one_in"], Value::Number(4));
    }
    let neither = inner(
        &json(SET, &example("clip-neither.csv"), &REGISTER),
        "rests_on",
    );
    assert_eq!(neither["register_is"], text("none fits"));
    assert_eq!(
        [&neither["holds_if"], &neither["register"]],
        [&Value::Null, &Value::Null]
    );
    let perhaps = json("examples/bench-a.txt", &example("bench-a-turned.csv"), &[]);
    assert_eq!(perhaps["verdict"], text("perhaps turned"));
    let ground = inner(&perhaps, "rests_on");
    assert_eq!(ground["register_is"], text("reset value, assumed"));
    assert_eq!(ground["holds_if"], Value::Null);
    assert_eq!(ground["theorems"], Value::List(vec![]));
}

#[test]
fn the_tone() {
    for (name, [x, y]) in [
        ("straight", [1, -1]),
        ("turned", [-1, 1]),
        ("quarter", [1, 1]),
        ("neither", [3, -3]),
    ] {
        let json = json(SET, &example(&format!("clip-{name}.csv")), &REGISTER);
        let tone = inner(&json, "tone");
        let keys = [
            "place",
            "sub_carrier",
            "line",
            "x",
            "y",
            "filler_x",
            "filler_y",
        ];
        assert_eq!(
            keys.map(|key| tone[key].clone()),
            [3, 9, 7, x, y, 1, -1].map(Value::Number)
        );
        assert_eq!(tone["file"], text("standard input"));
    }
    let none = json("examples/cannot-tell.txt", &example("cannot-tell.csv"), &[]);
    assert_eq!(none["verdict"], text("cannot tell"));
    assert_eq!(
        (&none["tone"], &none["sure"]),
        (&Value::Null, &Value::Flag(false))
    );
    assert_eq!(inner(&none, "rests_on")["register_is"], text("not needed"));
}

/// What 16 bits do not hold is in the text as it was typed, and in no number.
#[test]
fn a_point_beyond_16_bits() {
    let points = example("clip-neither.csv");
    for (point, typed, [x, y]) in [
        ("99999,-1", "(99999, -1)", [None, None]),
        ("1,-32769", "(1, -32769)", [None, None]),
        (
            "32767,-32768",
            "(32767, -32768)",
            [Some(32_767), Some(-32_768)],
        ),
    ] {
        let points = points.replacen("\n3,-3\n", &format!("\n{point}\n"), 1);
        let words = [&["clip", SET, "-"], REGISTER.as_slice()].concat();
        let plain = run_with(points.as_bytes(), &words);
        let words = format!("the point is {typed}, and the filler bits give (1, -1)");
        assert!(plain.line(1).ends_with(&words), "{}", plain.out);
        let json = json(SET, &points, &REGISTER);
        assert_eq!(json["verdict"], text("neither"));
        let tone = inner(&json, "tone");
        let number = |number: Option<i64>| number.map_or(Value::Null, Value::Number);
        assert_eq!([&tone["x"], &tone["y"]], [&number(x), &number(y)]);
        let ground = inner(&json, "rests_on");
        assert_eq!(ground["register_is"], text("none fits"));
    }
}

#[test]
fn refusals() {
    let room = json(SET, "1,1", &REGISTER);
    assert_eq!(room["name"], text("ROOM"));
    assert_eq!(
        (&room["register"], &room["size"]),
        (&Value::Number(4711), &Value::Null)
    );
    assert!(room.contains_key("sentence") && room.contains_key("place_is"));
    assert!(!room.contains_key("verdict") && !room.contains_key("tone"));
    let words = ["--register", "99999999999"];
    let seed = json(SET, &example("clip-straight.csv"), &words);
    assert_eq!(
        (&seed["name"], &seed["register"]),
        (&text("SEED"), &Value::Null)
    );
}
