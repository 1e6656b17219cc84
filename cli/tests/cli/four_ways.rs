//! Written symbols of random coded tables, turned each of the four ways: whatever the register, a quarter
//! turn is never taken for another way, and with the writer's register `turn` and `clip` say the
//! same way where a tone is monitored.

use crate::json::{inner, parsed, text, Value};
use crate::random_set::Set;
use crate::run::{numbers, quarter_left, quarter_right, run_with, turned};

/// Each way in which a symbol may come, its verdict, and whether it is a quarter turn.
fn ways(points: &str) -> [(String, &'static str, bool); 4] {
    [
        (points.to_string(), "straight", false),
        (turned(points), "turned", false),
        (quarter_left(points), "quarter left", true),
        (quarter_right(points), "quarter right", true),
    ]
}

/// The status and the verdict.
fn asked(command: &str, set: &str, points: &str, words: &[&str]) -> (i32, Value) {
    let words = [&[command, set, "-", "--json"], words].concat();
    let ran = run_with(points.as_bytes(), &words);
    (ran.status, parsed(&ran)["verdict"].clone())
}

fn status(way: &str) -> i32 {
    match way {
        "straight" => 0,
        "turned" => 32,
        _ => 37,
    }
}

#[test]
fn with_the_writer_s_register_no_way_is_told_wrongly() {
    let mut random = numbers(14);
    let mut counts = [0; 4];
    for number in 0..100 {
        let monitored = number % 4;
        let set = Set::random(&mut random, monitored);
        let name = set.write("four-ways.txt");
        let register = 1 + random(8_388_607) as u32;
        let points = set.symbol(&mut random, register);
        let register = ["--register", &register.to_string()];
        for (points, way, quarter) in ways(&points) {
            let told = (status(way), text(way));
            let cannot_tell = (33, text("cannot tell"));
            let turn = match (monitored, set.is_odd(), quarter) {
                (0, false, false) => cannot_tell.clone(),
                (0, false, true) => (37, text("quarter")),
                _ => told.clone(),
            };
            let clip = if monitored > 0 { told } else { cannot_tell };
            assert_eq!(asked("turn", &name, &points, &register), turn, "{way}");
            assert_eq!(asked("clip", &name, &points, &register), clip, "{way}");
        }
        counts[2 * usize::from(monitored > 0) + usize::from(set.is_odd())] += 1;
    }
    assert!(counts.iter().all(|&count| count > 5), "{counts:?}");
}

/// With any register, a wrong one, none or one to be found: 37 if and only if it is a quarter turn; and
/// where a side is told whatever the register, it is the true one.
#[test]
fn whatever_the_register_a_quarter_turn_is_told_from_the_others() {
    let mut random = numbers(15);
    let mut sides = 0;
    for number in 0..60 {
        let set = Set::random(&mut random, [0, 1, 3, 13][number % 4]);
        let name = set.write("four-ways-any.txt");
        let register = 1 + random(8_388_607) as u32;
        let points = set.symbol(&mut random, register);
        let wrong = (1 + random(8_388_607)).to_string();
        for (points, way, quarter) in ways(&points) {
            for words in [
                &[] as &[&str],
                &["--register", &wrong],
                &["--register=find"],
            ] {
                let words = [&["turn", name.as_str(), "-", "--json"], words].concat();
                let ran = run_with(points.as_bytes(), &words);
                assert_eq!(ran.status == 37, quarter, "{way} {words:?}: {}", ran.out);
                let json = parsed(&ran);
                let ground = inner(&json, "rests_on");
                let told = json["sure"] == Value::Flag(true) && ground["holds_if"] == Value::Null;
                if told && json["verdict"] != text("quarter") {
                    assert_eq!(json["verdict"], text(way), "{words:?}");
                    sides += usize::from(quarter);
                }
            }
        }
    }
    assert!(sides > 50, "{sides}");
}

/// The one refusal of a written symbol turned by a quarter, whatever the frame.
#[test]
fn exact_reading_has_one_answer_to_a_quarter_turn() {
    let mut random = numbers(16);
    let mut counts = [0; 3];
    for number in 0..90 {
        let set = Set::random(&mut random, [0, 0, 1][number % 3]);
        let name = set.write("four-ways-answer.txt");
        let register = 1 + random(8_388_607) as u32;
        let points = set.symbol(&mut random, register);
        let pair = usize::from(!(set.is_odd() || set.loaded() == 4));
        let (refusal, place) = match (set.first_place(1), set.first_place(0)) {
            (Some(one), _) => (13, one),
            (None, Some(monitored)) => (14, monitored),
            (None, None) => (15, pair),
        };
        for points in [quarter_left(&points), quarter_right(&points)] {
            let register = register.to_string();
            let words = ["read", &name, "-", "--json", "--register", &register];
            let ran = run_with(points.as_bytes(), &words);
            let told = parsed(&ran)["place"].clone();
            assert_eq!((ran.status, told), (refusal, Value::Number(place as i64)));
        }
        counts[refusal as usize - 13] += 1;
    }
    assert!(counts.iter().all(|&count| count > 5), "{counts:?}");
}
