//! What `--help` prints, and the manual page, from the tables of commands and options.

use crate::call::Command;
use crate::options::OPTIONS;

/// The form of all calls.
pub const USAGE: &str = "usage: clevisroot COMMAND [OPERANDS] [OPTIONS]; see clevisroot --help";

const ABOUT: &str =
    "VDSL2 tables, frames and points (G.993.2 clause 10.3), from files you can edit";

/// Options that every command takes.
const ALWAYS: [(&str, &str); 2] = [
    (
        "--help, -h",
        "this text, or that of a command (also: help COMMAND)",
    ),
    ("--version, -V", "the version"),
];

const FILES: &str = "\
files (# begins a comment; - is standard input, for one of the files)
  TABLES   mode coded (or uncoded), carriers G, then a line a tone in t order:
           sub-carrier, bits, gain (512 stands for 1)
  FRAME    hex, two digits a byte, byte 0 first; an empty line between frames
  POINTS   x,y, a line a place in t' order; an empty line or a header x,y between symbols
  LOG      pair: NAME and tables: FILE, then a line a symbol: the frame that was sent and the
           one that was read, or the word refused and a number
";

const STATUS: [(&str, &str); 11] = [
    ("0", "done; of turn and clip: straight"),
    ("1 to 8, 10 to 16, 22, 23", "the refusal's number"),
    ("32", "turn, clip: turned"),
    (
        "33",
        "turn, clip: cannot tell; read: the register cannot be found",
    ),
    ("34", "turn: no way is read; clip: neither"),
    ("35", "figures: one does not agree"),
    (
        "36",
        "turn, clip: perhaps straight or turned; clip: perhaps by a quarter",
    ),
    (
        "37",
        "turn, clip: turned by a quarter; turn: also where its side is open",
    ),
    ("64", "the call is wrong"),
    (
        "65",
        "a file says something else than its kind of file says; clip: the tables are uncoded",
    ),
    ("66", "a file cannot be read or written"),
];

pub fn tool(commands: &[Command]) -> String {
    let commands: String = commands.iter().map(command_line).collect();
    let options: String = option_lines().iter().map(row).collect();
    let statuses = STATUS.map(|(status, about)| (status.to_string(), about));
    let statuses: String = statuses.iter().map(row).collect();
    format!(
        "clevisroot: {ABOUT}\n\n{USAGE}\n\ncommands\n{commands}\noptions, before or after the \
         command\n{options}\n{FILES}\nexit status\n{statuses}\nexample\n  clevisroot check \
         examples/bench-a.txt\n"
    )
}

fn command_line(command: &Command) -> String {
    row(&(command.short_form(), command.about))
}

fn row((form, about): &(String, &str)) -> String {
    format!("  {form:<26}{about}\n")
}

/// All options with what they do.
fn option_lines() -> Vec<(String, &'static str)> {
    let options = OPTIONS.iter().map(|option| (option.form(), option.about));
    let always = ALWAYS
        .iter()
        .map(|(form, about)| (form.to_string(), *about));
    options.chain(always).collect()
}

pub fn command(command: &Command) -> String {
    let options = command.options.iter();
    let options: String = options
        .map(|option| row(&(option.form(), option.about)))
        .collect();
    let options = match options.as_str() {
        "" => String::new(),
        _ => format!("options\n{options}\n"),
    };
    format!(
        "clevisroot {}: {}\n\nusage: {}\n\n{options}{}",
        command.name,
        command.about,
        command.form(),
        command.details
    )
}

/// The manual page, as man reads it.
pub fn manual(commands: &[Command]) -> String {
    let version = env!("CARGO_PKG_VERSION");
    let commands: String = commands.iter().map(manual_section).collect();
    let options: String = option_lines()
        .iter()
        .map(|(form, about)| tagged(form, about))
        .collect();
    let statuses = STATUS.map(|(status, about)| tagged(status, about)).concat();
    format!(
        ".TH CLEVISROOT 1 \"\" \"clevisroot {version}\"\n.SH NAME\nclevisroot \\- {}\n\
         .SH SYNOPSIS\n.B clevisroot\n.I COMMAND OPERANDS OPTIONS\n.SH COMMANDS\n{commands}\
         .SH OPTIONS\n{options}.SH FILES\n.nf\n{}.fi\n.SH EXIT STATUS\n{statuses}",
        roff(ABOUT),
        roff(FILES)
    )
}

fn manual_section(command: &Command) -> String {
    format!(
        ".SS {}\n.nf\n{}\n.fi\n.PP\n{}.\n.PP\n.nf\n{}.fi\n",
        roff(command.name),
        roff(&command.form()),
        roff(command.about),
        roff(command.details)
    )
}

fn tagged(tag: &str, about: &str) -> String {
    format!(".TP\n.B {}\n{}\n", roff(tag), roff(about))
}

/// Text that man prints as it is.
fn roff(text: &str) -> String {
    let escaped = text.replace('\\', "\\e").replace('-', "\\-");
    let line = |line: &str| match line.chars().next() {
        Some('.' | '\'') => format!("\\&{line}"),
        _ => line.to_string(),
    };
    let lines: Vec<String> = escaped.split('\n').map(line).collect();
    lines.join("\n")
}
