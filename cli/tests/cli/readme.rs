//! The calls on the two README pages, run as a person would, with what the pages say they print.

use crate::run::{path, root, Ran};
use std::fs;
use std::path::{Path, PathBuf};
use std::process::{Command, Stdio};

/// A call of the tool on a page, and the lines under it.
struct Shown {
    call: String,
    output: String,
}

/// The calls in a page's console blocks: the lines that begin with `$` and this text. What stands
/// under another command is not the tool's.
fn calls_on(page: &str, begins: &str) -> Vec<Shown> {
    let text = fs::read_to_string(root().join(page)).unwrap();
    let blocks = text.split("```console\n").skip(1);
    let blocks = blocks.map(|block| block.split("```").next().unwrap());
    blocks.flat_map(|block| calls_in(block, begins)).collect()
}

fn calls_in(block: &str, begins: &str) -> Vec<Shown> {
    let commands = block.split("$ ").skip(1);
    let calls = commands.filter_map(|command| command.strip_prefix(begins));
    calls
        .map(|rest| {
            let (call, output) = rest.split_once('\n').unwrap();
            // A comment after the call, as a shell knows it.
            let call = call.split(" #").next().unwrap();
            Shown {
                call: call.trim().to_string(),
                output: output.to_string(),
            }
        })
        .collect()
}

/// The files that a page shows, each under a `$ cat` of its name.
fn files_on(page: &str) -> Vec<Shown> {
    calls_on(page, "cat ")
}

/// A folder with the examples, because the calls write files.
fn folder(name: &str) -> PathBuf {
    let folder = path(name);
    fs::create_dir_all(folder.join("examples")).unwrap();
    for file in fs::read_dir(root().join("examples")).unwrap() {
        let file = file.unwrap();
        fs::copy(file.path(), folder.join("examples").join(file.file_name())).unwrap();
    }
    folder
}

fn run_in(folder: &Path, call: &str) -> Ran {
    let mut command = Command::new(env!("CARGO_BIN_EXE_clevisroot"));
    command.args(call.split_whitespace()).current_dir(folder);
    Ran::of(&command.stdin(Stdio::null()).output().unwrap())
}

/// A picture that a page shows is what the page's call draws.
fn assert_picture(folder: &Path, drawn: &str, kept: &str) {
    let read = |path: &Path| fs::read_to_string(path).unwrap();
    assert_eq!(read(&folder.join(drawn)), read(&root().join(kept)));
}

#[test]
fn the_tool_s_page_shows_what_is_printed() {
    let folder = folder("readme-tool");
    for Shown { call, output } in files_on("cli/README.md") {
        // A file of examples/ is shown as it is there.
        if let Ok(kept) = fs::read_to_string(root().join(&call)) {
            assert_eq!(kept, output, "{call}");
        }
        fs::write(folder.join(call), output).unwrap();
    }
    let shown = calls_on("cli/README.md", "clevisroot ");
    assert!(shown.len() >= 5);
    for Shown { call, output } in shown {
        assert_eq!(run_in(&folder, &call).out, output, "clevisroot {call}");
    }
    assert_picture(&folder, "bench-a.svg", "docs/bench-a.svg");
    assert_picture(&folder, "nearest.svg", "cli/nearest.svg");
}

/// What the front page has for `clevisroot`.
const RUN: &str = "cargo run --offline -q -p cli -- ";

#[test]
fn the_front_page_shows_what_is_printed() {
    let folder = folder("readme-front");
    let shown = calls_on("README.md", RUN);
    let with_output = shown.iter().filter(|shown| !shown.output.is_empty());
    assert!(with_output.count() >= 1);
    for Shown { call, output } in shown {
        let ran = run_in(&folder, &call);
        assert!(ran.status < 64, "clevisroot {call}: {}", ran.err);
        // Where the page leaves the output out, the call only has to work.
        let expected = if output.is_empty() { &ran.out } else { &output };
        assert_eq!(&ran.out, expected, "clevisroot {call}");
    }
}

#[test]
fn the_front_page_s_calls_in_its_text_work() {
    let folder = folder("readme-text");
    let text = fs::read_to_string(root().join("README.md")).unwrap();
    let quoted = text.split('`').skip(1).step_by(2);
    let calls: Vec<&str> = quoted.filter_map(|call| call.strip_prefix(RUN)).collect();
    assert!(!calls.is_empty());
    for call in calls {
        assert_eq!(run_in(&folder, call).status, 0, "clevisroot {call}");
    }
    assert_picture(&folder, "bench-a.svg", "docs/bench-a.svg");
}
