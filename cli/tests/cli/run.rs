//! Calls of the tool and the files they need.

use std::fs;
use std::io::Write;
use std::path::{Path, PathBuf};
use std::process::{Command, Output, Stdio};

/// What a call left behind.
pub struct Ran {
    pub status: i32,
    pub out: String,
    pub err: String,
}

impl Ran {
    /// A program that is killed has status -1; one that panics says so.
    pub fn of(output: &Output) -> Ran {
        let ran = Ran {
            status: output.status.code().unwrap_or(-1),
            out: String::from_utf8_lossy(&output.stdout).into_owned(),
            err: String::from_utf8_lossy(&output.stderr).into_owned(),
        };
        assert!(
            ran.status != 101 && !ran.err.contains("panicked"),
            "{}",
            ran.err
        );
        ran
    }

    pub fn line(&self, number: usize) -> &str {
        self.out.lines().nth(number).unwrap_or("")
    }
}

/// The repository, where `examples/` is.
pub fn root() -> &'static Path {
    Path::new(env!("CARGO_MANIFEST_DIR")).parent().unwrap()
}

/// A file of `examples/`.
pub fn example(name: &str) -> String {
    fs::read_to_string(root().join("examples").join(name)).unwrap()
}

pub fn tool() -> Command {
    let mut command = Command::new(env!("CARGO_BIN_EXE_clevisroot"));
    command.current_dir(root()).stdin(Stdio::null());
    command
}

pub fn run(words: &[&str]) -> Ran {
    Ran::of(&tool().args(words).output().unwrap())
}

/// Runs with the bytes as standard input.
pub fn run_with(input: &[u8], words: &[&str]) -> Ran {
    let mut command = tool();
    command.args(words).stdin(Stdio::piped());
    command.stdout(Stdio::piped()).stderr(Stdio::piped());
    let mut child = command.spawn().unwrap();
    // The tool may end before it has read everything.
    let _ = child.stdin.take().unwrap().write_all(input);
    Ran::of(&child.wait_with_output().unwrap())
}

/// A path for a file of a test; names differ from test to test.
pub fn path(name: &str) -> PathBuf {
    Path::new(env!("CARGO_TARGET_TMPDIR")).join(name)
}

/// Writes a file and tells its name.
pub fn file(name: &str, content: impl AsRef<[u8]>) -> String {
    let path = path(name);
    fs::write(&path, content).unwrap();
    path.to_str().unwrap().to_string()
}

/// A table set file of tones: sub-carrier, bits, gain.
pub fn tables(name: &str, mode: &str, carriers: usize, tones: &[(usize, usize, usize)]) -> String {
    let mut text = format!("mode {mode}\ncarriers {carriers}\n");
    for (tone, bits, gain) in tones {
        text += &format!("{tone} {bits} {gain}\n");
    }
    file(name, text)
}

/// Tones 0 to `count` - 1 with these bits and gain 512.
pub fn equal(count: usize, bits: usize) -> Vec<(usize, usize, usize)> {
    (0..count).map(|tone| (tone, bits, 512)).collect()
}

/// The same points turned by half a turn.
pub fn turned(points: &str) -> String {
    moved(points, |(x, y)| (-x, -y))
}

/// The same points turned by a quarter to the left, counter-clockwise.
pub fn quarter_left(points: &str) -> String {
    moved(points, |(x, y)| (-y, x))
}

/// The same points turned by a quarter to the right.
pub fn quarter_right(points: &str) -> String {
    moved(points, |(x, y)| (y, -x))
}

fn moved(points: &str, to: impl Fn((i16, i16)) -> (i16, i16)) -> String {
    let number = |word: &str| word.trim().parse::<i16>().unwrap();
    let line = |line: &str| {
        let point = line.split('#').next().unwrap();
        match point.split_once(',') {
            Some((x, y)) if x != "x" => {
                let (x, y) = to((number(x), number(y)));
                format!("{x},{y}\n")
            }
            _ => "\n".to_string(),
        }
    };
    points.lines().map(line).collect()
}

/// What `encode` prints for a frame and a register.
pub fn written(set: &str, frame: &str, register: u32) -> String {
    let register = register.to_string();
    let words = ["encode", set, "-", "--register", &register];
    let ran = run_with(frame.as_bytes(), &words);
    assert_eq!(ran.status, 0, "{}", ran.out);
    ran.out
}

/// A command with `--register find`.
pub fn find(command: &str, set: &str, points: &str) -> Ran {
    let words = [command, set, "-", "--register", "find"];
    run_with(points.as_bytes(), &words)
}

/// A command on a table set with this start and standard input.
pub fn at(start: &str, command: &str, set: &str, input: &str) -> Ran {
    let words = [command, set, "-", "--start", start];
    run_with(input.as_bytes(), &words)
}

/// The lines of a result, without remarks.
pub fn result(ran: &Ran) -> Vec<&str> {
    let lines = ran.out.lines();
    lines
        .filter(|line| !line.starts_with('#') && !line.is_empty())
        .collect()
}

/// Numbers that look random and are the same in each run.
pub fn numbers(mut state: u64) -> impl FnMut(u64) -> u64 {
    move |bound| {
        state = state
            .wrapping_mul(6_364_136_223_846_793_005)
            .wrapping_add(1);
        (state >> 33) % bound
    }
}

/// Frames of bench table A.
pub fn frames(count: usize) -> Vec<String> {
    (0..count)
        .map(|number| format!("{:02x}", number * 7 % 32))
        .collect()
}

/// The symbols of a stream of bench table A, from the register on, without remarks.
pub fn symbols(count: usize, register: &str) -> Vec<String> {
    symbols_of("examples/bench-a.txt", &frames(count), register)
}

/// The symbols of these frames, as above.
pub fn symbols_of(set: &str, frames: &[String], register: &str) -> Vec<String> {
    let text = frames.join("\n\n");
    let words = ["encode", set, "-", "--register", register];
    let ran = run_with(text.as_bytes(), &words);
    assert_eq!(ran.status, 0, "{}", ran.out);
    let symbols = ran.out.split("x,y\n").skip(1);
    let points = |line: &&str| line.contains(',') && !line.starts_with('#');
    let bare = |line: &str| line.split('#').next().unwrap().trim().to_string() + "\n";
    symbols
        .map(|symbol| symbol.lines().filter(points).map(bare).collect())
        .collect()
}

/// The words of `turn` or `clip` on each symbol of a stream, without what to do about it.
pub fn verdicts(ran: &Ran) -> Vec<String> {
    let lines = ran.out.lines().filter(|line| line.starts_with("symbol "));
    let told = lines.map(|line| line.split(": ").nth(1).unwrap());
    told.map(|told| told.split(',').next().unwrap().to_string())
        .collect()
}
