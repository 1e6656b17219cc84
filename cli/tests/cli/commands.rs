//! Every command where it is done.

use crate::run::{equal, file, path, run, run_with, tables};
use std::fs;

const A: &str = "examples/bench-a.txt";
const COMMANDS: [&str; 13] = [
    "check",
    "order",
    "encode",
    "read",
    "nearest",
    "turn",
    "clip",
    "report",
    "map",
    "point",
    "figures",
    "man",
    "completions",
];

#[test]
fn check_tells_size_and_loading() {
    let ran = run(&["check", A]);
    assert_eq!((ran.status, ran.err.as_str()), (0, ""));
    assert_eq!(
        ran.out,
        "0 DONE: the table set is accepted\n\
         L = 5 bits in 1 byte\n\
         coded, G = 8, NSC = 6: 5 with data, 1 monitored, 0 silent\n\
         tones by bits: 2 of 1 bit, 1 of 2 bits, 1 of 3 bits, 1 of 4 bits\n\
         a turned clip shows if the register is known, because 1 tone is monitored\n\
         points turned by a quarter show whatever the register (theorem quarter-any-register)\n"
    );
}

#[test]
fn check_reads_standard_input() {
    let ran = run_with(b"mode uncoded\ncarriers 1\n0 1 512", &["check", "-"]);
    assert_eq!((ran.status, ran.line(1)), (0, "L = 1 bit in 1 byte"));
}

#[test]
fn silent_tones_alone_have_no_bits() {
    let set = tables("silent.txt", "uncoded", 2, &[(1, 0, 0)]);
    let ran = run(&["check", &set]);
    assert_eq!((ran.status, ran.line(1)), (0, "L = 0 bits in 0 bytes"));
    assert_eq!(ran.line(3), "tones by bits: none has any");
    let ran = run_with(b"", &["encode", &set, "-"]);
    assert_eq!(
        (ran.status, ran.line(2)),
        (0, "0,0       # place 0: sub-carrier 1, silent")
    );
    let ran = run_with(b"0,0", &["read", &set, "-"]);
    assert_eq!((ran.status, ran.out.lines().count()), (0, 1));
}

#[test]
fn order_prints_and_writes_both_lists() {
    let lists = "t'\n7 5 2 4 3 6\nb'\n0 0 4 2 3 2\n";
    let ran = run(&["order", A]);
    assert_eq!(
        (ran.status, ran.out),
        (0, format!("# 0 DONE: L = 5 bits in 1 byte\n{lists}"))
    );
    let out = path("order.txt");
    let ran = run(&["order", A, "--out", out.to_str().unwrap()]);
    assert_eq!(ran.line(1), format!("result written to {}", out.display()));
    assert_eq!(fs::read_to_string(out).unwrap(), lists);
}

#[test]
fn encode_prints_points_with_remarks() {
    let ran = run(&["encode", A, "examples/bench-a.hex"]);
    assert_eq!((ran.status, ran.err.as_str()), (0, ""));
    assert_eq!(
        ran.out,
        "# 0 DONE: L = 5 bits in 1 byte, register after 2097151\n\
         x,y\n\
         -1,3      # place 0: sub-carrier 7, 4 bits\n\
         -1,-1     # place 1: sub-carrier 5, 2 bits\n\
         -3,1      # place 2: sub-carrier 2, 3 bits\n\
         -1,-1     # place 3: sub-carrier 4, monitored\n\
         1,1       # place 4: sub-carrier 3, 1 bit\n\
         1,1       # place 5: sub-carrier 6, 1 bit\n"
    );
}

#[test]
fn what_is_printed_can_be_read_back() {
    let points = run_with(b"0x15", &["encode", A, "-"]);
    let frame = run_with(points.out.as_bytes(), &["read", A, "-"]);
    assert_eq!(
        frame.out,
        "# 0 DONE: L = 5 bits in 1 byte, register after 2097151\n15\n"
    );
    let again = run_with(frame.out.as_bytes(), &["encode", A, "-"]);
    assert_eq!(again.out, points.out);
}

#[test]
fn out_files_hold_the_bare_result() {
    let (points, frame) = (path("bare.csv"), path("bare.hex"));
    let (points, frame) = (points.to_str().unwrap(), frame.to_str().unwrap());
    let ran = run(&["encode", A, "examples/bench-a.hex", "--out", points]);
    let done = "0 DONE: L = 5 bits in 1 byte, register after 2097151";
    assert_eq!(ran.out, format!("{done}\nresult written to {points}\n"));
    let csv = "x,y\n-1,3\n-1,-1\n-3,1\n-1,-1\n1,1\n1,1\n";
    assert_eq!(fs::read_to_string(points).unwrap(), csv);
    let ran = run(&["read", A, points, &format!("--out={frame}")]);
    assert_eq!(ran.status, 0);
    assert_eq!(fs::read_to_string(frame).unwrap(), "15\n");
}

#[test]
fn the_register_goes_in_and_comes_out() {
    let ran = run_with(b"00", &["encode", A, "-", "--register", "2097151"]);
    assert!(
        ran.line(0).ends_with("register after 524287"),
        "{}",
        ran.out
    );
    for register in ["1", "8388607"] {
        let points = run_with(b"1f", &["encode", A, "-", "--register", register]);
        let frame = run_with(
            points.out.as_bytes(),
            &["read", A, "--register", register, "-"],
        );
        assert_eq!((frame.status, frame.line(1)), (0, "1f"));
        assert_eq!(frame.line(0), points.line(0));
    }
}

#[test]
fn options_may_come_before_the_command_and_registers_be_hex() {
    let after = run(&[
        "encode",
        A,
        "examples/bench-a.hex",
        "--register",
        "2097151",
        "--json",
    ]);
    for register in ["0x1fffff", "0X1FFFFF", "0x00000000001fffff"] {
        let words = [
            "--register",
            register,
            "--json",
            "encode",
            A,
            "examples/bench-a.hex",
        ];
        let before = run(&words);
        assert_eq!((before.status, &before.out), (0, &after.out), "{register}");
    }
}

#[test]
fn one_tone_there_and_back() {
    let ran = run(&["map", "5", "24"]);
    let words = "0 DONE: 5 bits, label 24 (11000): point (-3, 5)\n";
    assert_eq!((ran.status, ran.out.as_str()), (0, words));
    let ran = run(&["point", "5", "-3", "5"]);
    let words = "0 DONE: 5 bits, point (-3, 5): label 24 (11000)\n";
    assert_eq!((ran.status, ran.out.as_str()), (0, words));
}

#[test]
fn all_figures_agree() {
    let ran = run(&["figures"]);
    assert_eq!(ran.status, 0, "{}", ran.out);
    assert_eq!(ran.out.lines().last(), Some("29 of 29 figures agree"));
    assert_eq!(ran.out.matches("yes").count(), 29);
}

#[test]
fn a_full_set_there_and_back() {
    let set = tables("full.txt", "coded", 4096, &equal(4096, 15));
    // L is 59388: 4 bits of the last byte are used.
    let hex = "c5".repeat(59_388 / 8) + "05";
    let (frame, points) = (file("full.hex", &hex), path("full.csv"));
    let points = points.to_str().unwrap();
    let ran = run(&["encode", &set, &frame, "--out", points]);
    assert_eq!(
        (ran.status, ran.out.contains("L = 59388 bits in 7424 bytes")),
        (0, true)
    );
    let ran = run(&["read", &set, points]);
    let read: String = ran.out.lines().skip(1).collect();
    assert_eq!((ran.status, read), (0, hex));
}

#[test]
fn help_is_there_with_an_example() {
    for words in [
        vec!["--help"],
        vec!["-h"],
        vec!["help"],
        vec!["--json", "-h"],
    ] {
        let ran = run(&words);
        assert_eq!((ran.status, ran.err.as_str()), (0, ""));
        assert!(COMMANDS
            .iter()
            .all(|name| ran.out.contains(&format!("\n  {name} "))));
    }
    for name in COMMANDS {
        let ran = run(&[name, "whatever", "--help"]);
        assert_eq!((ran.status, ran.err.as_str()), (0, ""));
        assert!(ran.line(0).starts_with(&format!("clevisroot {name}: ")));
        assert!(ran.out.contains("\nexample") && ran.out.contains(&format!("  clevisroot {name}")));
        assert_eq!(run(&["help", name]).out, ran.out);
        assert_eq!(run(&["-h", name]).out, ran.out);
    }
    for version in ["--version", "-V"] {
        assert_eq!(run(&[version]).out, "clevisroot 0.1.0\n");
    }
}

#[test]
fn files_may_have_editors_marks_and_line_ends() {
    let text = "\u{feff}mode uncoded # first\r\ncarriers 2\r\n\r\n  1\t2   512  \r\n# end";
    let set = file("marks.txt", text);
    assert_eq!(run(&["check", &set]).status, 0);
    for points in ["X , Y\r\n 1 , -1 \r\n", "# points\n\n+1,-1 # one", "1,-1"] {
        let ran = run_with(points.as_bytes(), &["read", &set, "-"]);
        assert_eq!((ran.status, ran.line(1)), (0, "01"), "{points:?}");
    }
    for frame in ["01", " 0x01\n", "# a frame\n01 # 1", "0X01"] {
        let ran = run_with(frame.as_bytes(), &["encode", &set, "--", "-"]);
        assert_eq!((ran.status, ran.line(1)), (0, "x,y"), "{frame:?}");
    }
}
