//! Outputs destroy nothing: no input, no other output, and no target that is not replaced whole.

use crate::run::{equal, file, path, run, run_with, tables, tool, Ran};
use std::fs;
use std::process::{Command, Stdio};

const A: &str = "examples/bench-a.txt";
const TABLES: &str = "mode uncoded\ncarriers 1\n0 1 512\n";

/// Runs a shell script with the tool as `$TOOL`.
fn shell(script: &str) -> Ran {
    let mut command = Command::new("sh");
    command.args(["-c", script]).stdin(Stdio::null());
    command.env("TOOL", env!("CARGO_BIN_EXE_clevisroot"));
    command.current_dir(crate::run::root());
    Ran::of(&command.output().unwrap())
}

fn refused(ran: &Ran, message: &str) {
    assert_eq!((ran.status, ran.out.as_str()), (64, ""), "{}", ran.err);
    assert!(ran.err.contains(message), "{}", ran.err);
}

/// A folder of its own for a test.
fn folder(name: &str) -> String {
    let folder = path(name);
    let _ = fs::remove_dir_all(&folder);
    fs::create_dir(&folder).unwrap();
    folder.to_str().unwrap().to_string()
}

fn names(folder: &str) -> Vec<String> {
    let entries = fs::read_dir(folder).unwrap();
    let mut names: Vec<String> = entries
        .map(|entry| entry.unwrap().file_name().into_string().unwrap())
        .collect();
    names.sort();
    names
}

#[cfg(unix)]
#[test]
fn an_input_is_not_overwritten_by_whatever_name() {
    let folder = folder("inputs");
    let (set, frame) = (format!("{folder}/set.txt"), format!("{folder}/frame.hex"));
    fs::write(&set, TABLES).unwrap();
    fs::write(&frame, "01\n").unwrap();
    let (soft, hard) = (format!("{folder}/soft"), format!("{folder}/hard"));
    std::os::unix::fs::symlink(&frame, &soft).unwrap();
    fs::hard_link(&frame, &hard).unwrap();
    let dotted = format!("{folder}/../inputs/./frame.hex");
    for out in [&frame, &soft, &hard, &dotted] {
        for option in ["--out", "--svg"] {
            let ran = run(&["encode", &set, &frame, option, out]);
            refused(
                &ran,
                &format!("{option} would overwrite FRAME, which is read"),
            );
        }
        refused(
            &run(&["order", out, "--out", &frame]),
            "--out would overwrite TABLES, which is read",
        );
    }
    let call = format!("\"$TOOL\" encode {set} - --out {soft} < {frame}");
    refused(&shell(&call), "--out would overwrite FRAME");
    let call = format!("\"$TOOL\" encode {set} {frame} --out {folder}/o > {folder}/o");
    refused(&shell(&call), "--out names the file that is printed to");
    assert_eq!(fs::read_to_string(&frame).unwrap(), "01\n");
    fs::remove_file(&soft).unwrap(); // `rt ci` takes no link in the checkout
}

#[test]
fn two_outputs_are_not_one_file_by_two_spellings() {
    let folder = folder("outputs");
    for (out, svg) in [("x", "./x"), ("x", "../outputs/x"), ("./x", "x")] {
        let (out, svg) = (format!("{folder}/{out}"), format!("{folder}/{svg}"));
        let ran = run(&[
            "encode",
            A,
            "examples/bench-a.hex",
            "--out",
            &out,
            "--svg",
            &svg,
        ]);
        refused(&ran, "--out and --svg name the same file");
    }
    assert!(names(&folder).is_empty());
}

#[test]
fn an_option_is_not_taken_for_a_file_name() {
    for words in [
        ["--out", "--json"],
        ["--svg", "--register"],
        ["--register", "--json"],
    ] {
        let ran = run(&[&["encode", A, "examples/bench-a.hex"][..], &words].concat());
        refused(&ran, "looks like an option");
    }
    let folder = folder("dashes");
    let call = format!(
        "cd {folder} && \"$TOOL\" encode $OLDPWD/{A} $OLDPWD/examples/bench-a.hex --out=--json"
    );
    assert_eq!(shell(&call).status, 0);
    assert_eq!(names(&folder), ["--json"]);
}

#[test]
fn a_target_is_replaced_whole_or_not_at_all() {
    let folder = folder("whole");
    let target = format!("{folder}/points.csv");
    fs::write(&target, "kept").unwrap();
    // The second symbol cannot be parsed, when the first has been written beside the target.
    let ran = run_with(b"15\n\n0g\n", &["encode", A, "-", "--out", &target]);
    assert_eq!(ran.status, 65);
    assert_eq!(fs::read_to_string(&target).unwrap(), "kept");
    assert_eq!(names(&folder), ["points.csv"]);
    // The picture cannot be written, so that the points do not take their place either.
    let nowhere = format!("{folder}/no/such.svg");
    let ran = run_with(
        b"15",
        &["encode", A, "-", "--out", &target, "--svg", &nowhere],
    );
    assert_eq!(ran.status, 66, "{}", ran.out);
    assert_eq!(fs::read_to_string(&target).unwrap(), "kept");
    assert_eq!(names(&folder), ["points.csv"]);
}

#[cfg(target_os = "linux")]
#[test]
fn a_full_disk_leaves_the_target_alone() {
    let folder = folder("full");
    let target = format!("{folder}/points.csv");
    fs::write(&target, "kept").unwrap();
    let set = tables("full-disk.txt", "uncoded", 4096, &equal(4096, 8));
    let frame = file("full-disk.hex", "00".repeat(4096));
    // A limit on the size of files stands for the end of the disk.
    let call =
        format!("trap '' XFSZ; ulimit -f 4; exec \"$TOOL\" encode {set} {frame} --out {target}");
    let ran = shell(&call);
    assert_eq!(ran.status, 66, "{}{}", ran.out, ran.err);
    assert!(ran.err.contains("points.csv: "), "{}", ran.err);
    assert_eq!(fs::read_to_string(&target).unwrap(), "kept");
    assert_eq!(names(&folder), ["points.csv"]);
    let ran = run(&["encode", A, "examples/bench-a.hex", "--out", "/dev/full"]);
    assert_eq!(ran.status, 66);
    assert!(ran.err.contains("/dev/full: "), "{}", ran.err);
}

#[cfg(target_os = "linux")]
#[test]
fn a_closed_standard_output_is_told() {
    for call in ["map 4 9", "--help", "man", "figures --json"] {
        let ran = shell(&format!("\"$TOOL\" {call} >&-"));
        assert_eq!(ran.status, 66, "{call}");
        assert!(ran.err.contains("standard output: it is closed"));
        let ran = shell(&format!("\"$TOOL\" {call} > /dev/null"));
        assert_eq!((ran.status, ran.err.as_str()), (0, ""), "{call}");
        // Opened for both, as daemons and Python do.
        let ran = shell(&format!("\"$TOOL\" {call} 1<> /dev/null"));
        assert_eq!((ran.status, ran.err.as_str()), (0, ""), "{call}");
    }
}

#[cfg(unix)]
#[test]
fn links_stay_links_and_modes_stay() {
    use std::os::unix::fs::PermissionsExt;
    let folder = folder("modes");
    let (target, link) = (format!("{folder}/real.csv"), format!("{folder}/link.csv"));
    fs::write(&target, "old").unwrap();
    fs::set_permissions(&target, fs::Permissions::from_mode(0o640)).unwrap();
    std::os::unix::fs::symlink("real.csv", &link).unwrap();
    let ran = run(&["encode", A, "examples/bench-a.hex", "--out", &link]);
    assert_eq!(ran.status, 0, "{}", ran.err);
    assert!(fs::symlink_metadata(&link).unwrap().is_symlink());
    assert!(fs::read_to_string(&target).unwrap().starts_with("x,y\n"));
    let mode = fs::metadata(&target).unwrap().permissions().mode();
    assert_eq!(mode & 0o777, 0o640);
    fs::set_permissions(&target, fs::Permissions::from_mode(0o440)).unwrap();
    let ran = run(&["encode", A, "examples/bench-a.hex", "--out", &target]);
    assert_eq!(ran.status, 66);
    assert_eq!(names(&folder), ["link.csv", "real.csv"]);
    fs::remove_file(&link).unwrap(); // `rt ci` takes no link in the checkout
}

#[test]
fn a_reader_that_goes_away_does_not_stop_the_file() {
    let folder = folder("gone");
    let target = format!("{folder}/points.csv");
    let set = tables("gone.txt", "uncoded", 4096, &equal(4096, 8));
    let frames = file("gone.hex", format!("{}\n\n", "00".repeat(4096)).repeat(3));
    // `true` reads nothing.
    let call = format!("\"$TOOL\" encode {set} {frames} --out {target} | true");
    assert_eq!((shell(&call).status, shell(&call).err.as_str()), (0, ""));
    let points = fs::read_to_string(&target).unwrap();
    assert_eq!(points.matches("x,y\n").count(), 3);
    assert_eq!(
        points.lines().filter(|line| line.contains(',')).count(),
        3 * 4097
    );
}

#[test]
fn a_pipe_keeps_the_reason() {
    let ran = shell(&format!(
        "echo 20 | \"$TOOL\" encode {A} - | \"$TOOL\" read {A} - > /dev/null"
    ));
    let reason = "clevisroot: refused: 11 FRAME at place 0: the frame as a whole: L = 5 bits";
    assert!(ran.err.contains(reason), "{}", ran.err);
    let ran = run_with(b"1,1\n1,1\n1,1\n1,1\n1,1\n1,1", &["read", A, "-", "--json"]);
    assert!(ran
        .err
        .starts_with("clevisroot: refused: 14 MONITOR at place 3"));
}

#[test]
fn names_of_files_do_not_steer_the_terminal() {
    let set = file(
        "a\u{1b}[31mb\u{9b}2Jc.txt",
        "mode coded\ncarriers 1\n9 9 9\n",
    );
    for ran in [run(&["check", &set]), run(&["check", &format!("{set}.no")])] {
        assert!(ran.status == 2 || ran.status == 66);
        let printed = ran.out + &ran.err;
        assert!(
            printed.contains("a\\u{1b}[31mb\\u{9b}2Jc.txt"),
            "{printed:?}"
        );
        assert!(!printed.contains('\u{1b}') && !printed.contains('\u{9b}'));
    }
    let out = path("o\u{1b}[31m.csv");
    let words = [
        "encode",
        A,
        "examples/bench-a.hex",
        "--out",
        out.to_str().unwrap(),
    ];
    let ran = Ran::of(&tool().args(words).output().unwrap());
    assert!(
        ran.status == 0 && !ran.out.contains('\u{1b}'),
        "{}",
        ran.out
    );
}
