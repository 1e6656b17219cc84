//! The words of the command line.

use crate::call::{Asked, Call, Command, Operand};
use crate::fault::Fault;
use crate::files::{register_number, saturating};
use crate::help;
use crate::options::{Kind, Opt, HTML, OPTIONS, OUT, SVG};
use crate::output::{is_standard_output, same_file};
use crate::words::shown;
use std::ffi::{OsStr, OsString};
use std::path::Path;

pub enum Request {
    /// A text to print and nothing else: help or the version.
    Text(String),
    Call(Call),
}

pub fn parse(words: &[OsString], commands: &'static [Command]) -> Result<Request, Fault> {
    let wants_help = before_dashes(words).any(is_help);
    if !wants_help && before_dashes(words).any(is_version) {
        let version = format!("clevisroot {}\n", env!("CARGO_PKG_VERSION"));
        return Ok(Request::Text(version));
    }
    let mut sorted = Words::of(words, wants_help);
    let asks = sorted.operands.first().is_some_and(|word| word == "help");
    if asks {
        sorted.operands.remove(0);
    }
    if sorted.operands.is_empty() {
        return match (wants_help || asks, sorted.options.first()) {
            (true, _) => Ok(Request::Text(help::tool(commands))),
            (false, Some(Given { name, .. })) => {
                let told = format!("no command, and only --{}", shown(name));
                Err(Fault::usage(format!("{told}\n{}", help::USAGE)))
            }
            (false, None) => Err(Fault::usage(help::USAGE)),
        };
    }
    let command = find(commands, &sorted.operands.remove(0))?;
    if wants_help || asks {
        return Ok(Request::Text(help::command(command)));
    }
    sorted.call(command, commands).map(Request::Call)
}

fn before_dashes(words: &[OsString]) -> impl Iterator<Item = &OsString> {
    words.iter().take_while(|word| *word != "--")
}

fn is_help(word: &OsString) -> bool {
    word == "--help" || word == "-h"
}

fn is_version(word: &OsString) -> bool {
    word == "--version" || word == "-V"
}

fn find(commands: &'static [Command], name: &OsStr) -> Result<&'static Command, Fault> {
    let mut found = commands.iter().filter(|command| name == command.name);
    let message = || Fault::usage(format!("no command {name:?}\n{}", help::USAGE));
    found.next().ok_or_else(message)
}

/// The words sorted into operands, the command's name among them, and options.
#[derive(Default)]
struct Words {
    operands: Vec<OsString>,
    options: Vec<Given>,
}

/// An option as it was given.
struct Given {
    name: String,
    value: Option<OsString>,
    /// The value is the next word, not after `=`.
    apart: bool,
}

impl Words {
    /// `--name` and `--name=value` are options until `--`; all else is an operand, `-3` too. An
    /// option that takes a value and has no `=` takes the next word. Words that ask for help are
    /// left out where it is given.
    fn of(words: &[OsString], without_help: bool) -> Words {
        let mut sorted = Words::default();
        let mut words = words.iter();
        while let Some(word) = words.next() {
            let option = word.to_str().and_then(|word| word.strip_prefix("--"));
            match option {
                _ if without_help && is_help(word) => {}
                None => sorted.operands.push(word.clone()),
                Some("") => sorted.operands.extend(words.by_ref().cloned()),
                Some(option) => sorted.options.push(Given::of(option, &mut words)),
            }
        }
        sorted
    }

    fn call(self, command: &'static Command, commands: &'static [Command]) -> Result<Call, Fault> {
        let mut call = Call {
            command,
            commands,
            operands: self.operands,
            register: Asked::Reset,
            start: None,
            options: Vec::new(),
        };
        for (count, given) in self.options.iter().enumerate() {
            let name = &given.name;
            let twice = self.options[..count]
                .iter()
                .any(|other| other.name == *name);
            if twice {
                return Err(command.wrong(&format!("--{} is given twice", shown(name))));
            }
            let mut options = command.options.iter();
            let option = options.find(|option| option.name == name);
            let unknown = || command.wrong(&format!("no option --{} here", shown(name)));
            set(&mut call, option.ok_or_else(unknown)?, given)
                .map_err(|message| command.wrong(&format!("--{name} {message}")))?;
        }
        check_operands(&call)?;
        check_outputs(&call)?;
        Ok(call)
    }
}

impl Given {
    fn of<'a>(option: &str, words: &mut impl Iterator<Item = &'a OsString>) -> Given {
        let (name, value) = match option.split_once('=') {
            Some((name, value)) => (name, Some(value.into())),
            None => (option, None),
        };
        let takes = OPTIONS
            .iter()
            .any(|other| other.name == name && other.kind != Kind::Flag);
        let apart = value.is_none() && takes;
        Given {
            name: name.to_string(),
            value: value.or_else(|| if apart { words.next().cloned() } else { None }),
            apart,
        }
    }
}

/// Takes an option into the call.
fn set(call: &mut Call, option: &'static Opt, given: &Given) -> Result<(), String> {
    let value = match (option.kind, &given.value) {
        (Kind::Flag, Some(_)) => return Err("takes no value".to_string()),
        (Kind::Flag, None) => OsString::new(),
        (_, None) => return Err("takes a value".to_string()),
        (_, Some(value)) => value.clone(),
    };
    let word = value.to_string_lossy();
    if given.apart && word.starts_with("--") {
        return Err(format!(
            "takes a value, and `{0}` looks like an option: for a value of that name write --{1}={0}",
            shown(&word),
            option.name
        ));
    }
    match option.kind {
        Kind::Register | Kind::RegisterOrFind => call.register = register(option.kind, &word)?,
        Kind::Start => call.start = Some(start(&word)?),
        Kind::Output if word == "-" || word.is_empty() => {
            return Err("takes the name of a file".to_string())
        }
        Kind::Name if word.trim().is_empty() => return Err("takes a name".to_string()),
        Kind::Flag | Kind::Input | Kind::Output | Kind::Name => {
            call.options.push((option.name, value));
        }
    }
    Ok(())
}

/// Where a register can be found.
const FINDERS: &str = "`turn --register find` and `read --register find` find it from the points";

fn register(kind: Kind, word: &str) -> Result<Asked, String> {
    match (kind, register_number(word)) {
        (_, Some(number)) => Ok(Asked::Given(number, word.to_string())),
        (Kind::RegisterOrFind, None) if word == "find" => Ok(Asked::Find),
        (Kind::RegisterOrFind, None) => Err("takes a whole number from 1 or `find`".to_string()),
        (_, None) if word == "find" => Err(format!("takes a whole number from 1\n{FINDERS}")),
        _ => Err("takes a whole number from 1".to_string()),
    }
}

/// Any byte, because the library has an answer for each.
fn start(word: &str) -> Result<u8, String> {
    let number = saturating(word, u32::MAX).and_then(|number| u8::try_from(number).ok());
    number.ok_or_else(|| "takes a whole number from 0 to 7".to_string())
}

fn check_operands(call: &Call) -> Result<(), Fault> {
    let command = call.command;
    let given = call.operands.len();
    let takes = |index| command.operand(index).is_some();
    let missing = match command.operands.last() {
        Some(Operand::Inputs(_)) => given + 1 < command.operands.len(),
        _ => given < command.operands.len(),
    };
    if missing || !(0..given).all(takes) {
        return Err(command.wrong("not the operands it takes"));
    }
    let inputs = call.inputs();
    if inputs.iter().filter(|(_, word)| *word == "-").count() > 1 {
        return Err(command.wrong("standard input can be one of the files, not two"));
    }
    for (operand, word) in command.operands.iter().zip(&call.operands) {
        if let Operand::Word(name, words) = operand {
            if !words.iter().any(|known| word == known) {
                return Err(command.wrong(&format!("{name} is one of {}", words.join(", "))));
            }
        }
    }
    Ok(())
}

/// No output may take the place of an input, of the other output, or of what is printed.
fn check_outputs(call: &Call) -> Result<(), Fault> {
    let wrong = |message: String| Err(call.command.wrong(&message));
    if let (Some(out), Some(svg)) = (call.file(&OUT), call.file(&SVG)) {
        if same_file(out, svg) {
            return wrong("--out and --svg name the same file".to_string());
        }
    }
    for option in [&OUT, &SVG, &HTML] {
        let Some(output) = call.file(option).filter(|output| output.is_file()) else {
            continue;
        };
        if let Some(name) = overwritten(call, output) {
            let option = option.name;
            return wrong(format!("--{option} would overwrite {name}, which is read"));
        }
        if is_standard_output(output) {
            let option = option.name;
            return wrong(format!("--{option} names the file that is printed to"));
        }
    }
    Ok(())
}

/// What this output would overwrite of what is read.
fn overwritten(call: &Call, output: &Path) -> Option<String> {
    let mut inputs = call.inputs().into_iter();
    let found = inputs.find(|(_, word)| same_file(output, input(word)));
    found.map(|(name, _)| name)
}

/// The file of an operand; standard input has a name too.
fn input(word: &OsStr) -> &Path {
    Path::new(if word == "-" {
        OsStr::new("/dev/stdin")
    } else {
        word
    })
}
