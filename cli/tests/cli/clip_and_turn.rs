//! `clip` and `turn` on written symbols, straight and turned, with the writer's register: they never
//! contradict each other, and where a tone is monitored they say the same way.

use crate::random_set::Set;
use crate::run::{equal, numbers, run_with, tables, turned, written, Ran};

/// The point of the tone that was looked at, and the one that its filler bits give.
fn looked_at(ran: &Ran) -> [(i32, i32); 2] {
    let points = ran.line(1).split('(').skip(1).map(|rest| {
        let point = rest.split(')').next().unwrap();
        let (x, y) = point.split_once(", ").unwrap();
        (x.parse().unwrap(), y.parse().unwrap())
    });
    let points: Vec<(i32, i32)> = points.collect();
    [points[0], points[1]]
}

#[test]
fn they_never_contradict_each_other() {
    let mut random = numbers(10);
    let mut counts = [0; 4];
    for number in 0..160 {
        let monitored = number % 4;
        let set = Set::random(&mut random, monitored);
        let name = set.write("clip-and-turn.txt");
        let register = 1 + random(8_388_607) as u32;
        let points = set.symbol(&mut random, register);
        let register = register.to_string();
        for (points, way) in [(turned(&points), 32), (points, 0)] {
            let [clip, turn] = ["clip", "turn"].map(|command| {
                let words = [command, &name, "-", "--register", &register];
                run_with(points.as_bytes(), &words)
            });
            let expected = match (monitored, set.is_odd()) {
                (0, false) => [33, 33],
                (0, true) => [33, way],
                _ => [way, way],
            };
            assert_eq!(
                [clip.status, turn.status],
                expected,
                "{}{}",
                clip.out,
                turn.out
            );
            if monitored > 0 {
                let [(x, y), (filler_x, filler_y)] = looked_at(&clip);
                let sign = if way == 0 { 1 } else { -1 };
                assert_eq!((x, y), (sign * filler_x, sign * filler_y));
            }
            counts[2 * usize::from(monitored > 0) + usize::from(set.is_odd())] += 1;
        }
    }
    assert!(counts.iter().all(|&count| count > 20), "{counts:?}");
}

/// The register that draws the opposite of the writer's bits deceives it every time, and the assumed one
/// often, but never without a condition or a "perhaps".
#[test]
fn what_a_wrong_register_tells_has_its_condition() {
    let mut random = numbers(11);
    let mut deceived = 0;
    for _ in 0..60 {
        let set = Set::random(&mut random, 1);
        let name = set.write("clip-wrong-register.txt");
        let register = 1 + random(8_388_606) as u32;
        let points = set.symbol(&mut random, register);
        let opposite = (8_388_607 - register).to_string();
        let given = ["clip", &name, "-", "--register", &opposite];
        let given = run_with(points.as_bytes(), &given);
        assert_eq!(given.status, 32, "{}", given.out);
        let condition = format!(
            ", if the tables and register {opposite}, which was given, are the writer's and the one point that was \
             looked at came as it was written but for a turn: "
        );
        assert!(given.line(0).contains(&condition), "{}", given.out);
        let turn = "; `turn` tells it whatever the register, because N, ";
        assert_eq!(given.line(0).contains(turn), set.is_odd(), "{}", given.out);
        let assumed = run_with(points.as_bytes(), &["clip", &name, "-"]);
        assert!(matches!(assumed.status, 34 | 36), "{}", assumed.out);
        deceived += usize::from(assumed.line(0).starts_with("Perhaps turned, "));
    }
    assert!(deceived > 8, "{deceived}");
}

/// Written with one register and asked with another, `clip` says the wrong way, and names the call that
/// says the true one.
#[test]
fn the_call_that_clip_names_says_the_true_way() {
    let tones = [equal(5, 2), vec![(7, 0, 512)]].concat();
    let odd = tables("clip-turn-odd.txt", "coded", 8, &tones);
    let trellis =
        "; `turn` tells it whatever the register, because N, the count of non-zero re-ordered \
                   entries, is odd (5).";
    let find = "; `turn --register find` tells it whatever the register.";
    let twelve = "examples/twelve-monitored.txt";
    for (set, names, finds) in [(odd.as_str(), trellis, false), (twelve, find, true)] {
        for register in [1, 4_711, 8_388_606] {
            let points = written(set, "02", register);
            let other = (8_388_607 - register).to_string();
            for (points, true_way, told) in [(turned(&points), 32, 0), (points, 0, 32)] {
                let clip = ["clip", set, "-", "--register", &other];
                let clip = run_with(points.as_bytes(), &clip);
                assert_eq!(clip.status, told, "{}", clip.out);
                assert!(clip.line(0).ends_with(names), "{}", clip.out);
                let register = if finds { "find" } else { &other };
                let turn = ["turn", set, "-", "--register", register];
                let turn = run_with(points.as_bytes(), &turn);
                assert_eq!(turn.status, true_way, "{}", turn.out);
                assert!(turn.line(0).contains(", whatever the register"));
            }
        }
    }
}
