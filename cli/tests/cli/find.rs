//! `--register find`: the register from the monitored tones, straight and turned, with too few
//! tones, and with contradictory points.

use crate::json::{object, text, Value};
use crate::run::{equal, find, run_with, tables, turned, written};

const LARGE: &str = "examples/vdsl2-4096.txt";
const A: &str = "examples/bench-a.txt";
const REGISTERS: [u32; 6] = [1, 2, 4711, 4_194_304, 5_592_405, 8_388_607];

/// Four 2-bit tones, so that N is even and the trellis code does not tell, and monitored tones in a
/// row, with silent ones before and after them.
fn set_with(monitored: usize) -> String {
    let silent = |tones: std::ops::Range<usize>| tones.map(|tone| (tone, 0, 0)).collect();
    let row = (6..6 + monitored).map(|tone| (tone, 0, 512)).collect();
    let tones = [equal(4, 2), silent(4..6), row, silent(60..63)].concat();
    let name = format!("find-{monitored}.txt");
    tables(&name, "coded", 64, &tones)
}

#[test]
fn the_large_example_from_the_middle_of_a_stream() {
    let frame: String = (0..1822)
        .map(|byte| format!("{:02x}", byte * 37 % 256))
        .collect();
    for register in REGISTERS {
        let points = written(LARGE, &frame, register);
        let straight = find("turn", LARGE, &points);
        assert_eq!(straight.status, 0, "{}", straight.out);
        let words = format!("with register {register}, which 40 monitored tones give");
        assert!(straight.line(0).contains(&words), "{}", straight.out);
        let wrong = find("turn", LARGE, &turned(&points));
        assert_eq!(wrong.status, 32, "{}", wrong.out);
        assert!(wrong.line(0).contains(&words), "{}", wrong.out);
        let read = find("read", LARGE, &points);
        assert_eq!(read.status, 0);
        let found = format!("# register before {register}, found from 40 monitored tones");
        assert_eq!(read.line(1), found);
        assert_eq!(read.out.lines().skip(2).collect::<String>(), frame);
    }
}

#[test]
fn twelve_tones_are_enough_and_eleven_are_not() {
    for monitored in 1..=14 {
        let set = set_with(monitored);
        for register in REGISTERS {
            let points = written(&set, "02", register);
            let (straight, wrong) = if monitored < 12 { (33, 33) } else { (0, 32) };
            let ran = find("turn", &set, &points);
            assert_eq!(ran.status, straight, "{}", ran.out);
            assert_eq!(find("turn", &set, &turned(&points)).status, wrong);
            let read = find("read", &set, &points);
            assert_eq!(read.status, straight, "{}", read.out);
            if monitored < 12 {
                let few = format!("only {} equations", 2 * monitored);
                assert!(ran.line(0).contains(&few), "{}", ran.out);
                assert!(ran.line(1).ends_with("register not known"), "{}", ran.out);
                assert!(read.line(0).starts_with("Cannot tell the register: "));
                assert!(
                    read.err.contains("Cannot tell the register: "),
                    "{}",
                    read.err
                );
            }
        }
    }
}

#[test]
fn points_of_the_opposite_way_are_not_read() {
    let set = set_with(12);
    let points = turned(&written(&set, "02", 4711));
    let ran = find("read", &set, &points);
    assert_eq!((ran.status, ran.line(0)), (14, "refused: 14 MONITOR"));
    assert!(ran.line(2).contains("see `turn`"), "{}", ran.out);
}

#[test]
fn contradictory_points_fit_no_register() {
    let set = set_with(20);
    let points = written(&set, "02", 4711);
    let lines: Vec<&str> = points.lines().collect();
    // The monitored tones are at places 6 to 25, after two lines of head.
    for place in 6..26 {
        let mut broken: Vec<String> = lines.iter().map(|line| line.to_string()).collect();
        let point = broken[place + 2]
            .split('#')
            .next()
            .unwrap()
            .trim()
            .to_string();
        let (x, y) = point.split_once(',').unwrap();
        let x: i16 = x.parse().unwrap();
        broken[place + 2] = format!("{},{y}", -x);
        let ran = find("turn", &set, &broken.join("\n"));
        assert_eq!(ran.status, 34, "{place}: {}", ran.out);
        assert!(ran.line(0).contains("whatever the register"), "{}", ran.out);
        assert_eq!(find("read", &set, &broken.join("\n")).status, 33);
        broken[place + 2] = "3,3".to_string();
        let ran = find("turn", &set, &broken.join("\n"));
        assert_eq!(ran.status, 34, "{}", ran.out);
        assert!(ran.line(1).contains("13 OFFGRID"), "{}", ran.out);
    }
}

/// All the filler bits 0, or all 1: neither is what a valid register draws.
#[test]
fn the_register_0_is_not_found() {
    let set = set_with(15);
    let points = written(&set, "02", 4711);
    for wrong in ["1,1", "-1,-1"] {
        let line = |line: &str| match line.contains("monitored") {
            true => wrong.to_string(),
            false => line.to_string(),
        };
        let points: Vec<String> = points.lines().map(line).collect();
        let ran = find("turn", &set, &points.join("\n"));
        assert_eq!(ran.status, 34, "{}", ran.out);
    }
}

#[test]
fn the_trellis_has_the_last_word() {
    let set = set_with(12);
    let points = written(&set, "02", 4711);
    let mut lines: Vec<String> = points.lines().map(str::to_string).collect();
    let point = lines[2].split('#').next().unwrap().trim().to_string();
    let (x, y) = point.split_once(',').unwrap();
    lines[2] = format!("{},{y}", -x.parse::<i16>().unwrap());
    let ran = find("turn", &set, &lines.join("\n"));
    assert_eq!(ran.status, 34, "{}", ran.out);
    assert!(ran.line(1).contains("15 TRELLIS") && ran.line(2).contains("14 MONITOR"));
    assert_eq!(find("read", &set, &lines.join("\n")).status, 15);
}

#[test]
fn without_a_monitored_tone_there_is_nothing_to_find() {
    let set = set_with(0);
    let points = written(&set, "02", 4711);
    let ran = find("turn", &set, &points);
    assert_eq!(ran.status, 33);
    assert!(ran.line(0).contains("monitors no tone"), "{}", ran.out);
    let ran = find("read", &set, &points);
    assert_eq!(ran.status, 33);
    assert!(ran.line(0).contains("no tone is monitored"), "{}", ran.out);
}

#[test]
fn refusals_that_need_no_register_come_first() {
    let ran = find("turn", A, "1,1\n");
    assert_eq!((ran.status, ran.line(0)), (10, "refused: 10 ROOM"));
    let ran = find("read", A, "1,1\n");
    assert_eq!((ran.status, ran.line(0)), (10, "refused: 10 ROOM"));
}

#[test]
fn json_says_what_was_found() {
    let set = set_with(13);
    let points = written(&set, "02", 4711);
    let words = ["turn", set.as_str(), "-", "--register=find", "--json"];
    let turn = object(&run_with(turned(&points).as_bytes(), &words));
    assert_eq!(
        [&turn["verdict"], &turn["sure"]],
        [&text("turned"), &Value::Flag(true)]
    );
    let Value::Object(ground) = &turn["rests_on"] else {
        panic!("no object")
    };
    assert_eq!(ground["register"], Value::Number(4711));
    assert_eq!(ground["register_is"], text("found"));
    assert_eq!(ground["monitored_tones"], Value::Number(13));
    let words = ["read", set.as_str(), "-", "--register=find", "--json"];
    let read = object(&run_with(points.as_bytes(), &words));
    assert_eq!(read["register_before"], Value::Number(4711));
    let few = written(A, "00", 4711);
    let words = ["read", A, "-", "--register=find", "--json"];
    let read = object(&run_with(few.as_bytes(), &words));
    assert_eq!([&read["number"], &read["register"]], [&Value::Null; 2]);
}
