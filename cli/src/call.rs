//! A command of the tool, and a call of it.

use crate::fault::Fault;
use crate::options::{self, Kind, Opt};
use clevisroot_sys::RESET;
use std::ffi::{OsStr, OsString};
use std::path::Path;

/// What an operand is, with the name that the help has for it.
#[derive(Clone, Copy)]
pub enum Operand {
    /// A file that is read; `-` is standard input.
    Input(&'static str),
    /// Any number of such files, as the last operands.
    Inputs(&'static str),
    Number(&'static str),
    /// One of a few words.
    Word(&'static str, &'static [&'static str]),
}

impl Operand {
    pub fn name(&self) -> &'static str {
        match self {
            Operand::Input(name)
            | Operand::Inputs(name)
            | Operand::Number(name)
            | Operand::Word(name, _) => name,
        }
    }

    /// The operand as a form of a call shows it.
    fn form(&self) -> String {
        match self {
            Operand::Inputs(name) => format!("[{name}...]"),
            operand => operand.name().to_string(),
        }
    }
}

pub struct Command {
    pub name: &'static str,
    pub operands: &'static [Operand],
    /// The options it takes besides --help.
    pub options: &'static [&'static Opt],
    /// What it does, in a line.
    pub about: &'static str,
    /// What its help says besides.
    pub details: &'static str,
    /// Answers a call and tells the exit status.
    pub run: fn(&Call) -> Result<u8, Fault>,
}

impl Command {
    /// How it is called.
    pub fn form(&self) -> String {
        let mut form = format!("clevisroot {}", self.short_form());
        for option in self.options {
            form.push_str(&format!(" [{}]", option.form()));
        }
        form
    }

    /// Its name and its operands.
    pub fn short_form(&self) -> String {
        let operands = self.operands.iter().map(Operand::form);
        let words: Vec<String> = [self.name.to_string()]
            .into_iter()
            .chain(operands)
            .collect();
        words.join(" ")
    }

    /// The operand that a word of a call is, counted from 0.
    pub fn operand(&self, index: usize) -> Option<&Operand> {
        let many = |operand: &&Operand| matches!(operand, Operand::Inputs(_));
        let last = || self.operands.last().filter(many);
        self.operands.get(index).or_else(last)
    }

    /// The fault of a wrong call: what is wrong, and how it is called.
    pub fn wrong(&self, message: &str) -> Fault {
        let (name, form) = (self.name, self.form());
        Fault::usage(format!(
            "{name}: {message}\nusage: {form}; see clevisroot {name} --help"
        ))
    }
}

/// The register that a call names.
#[derive(Clone, Debug, PartialEq, Eq)]
pub enum Asked {
    /// None: the value at reset is assumed.
    Reset,
    /// The number as the library takes it, and the word as it was typed.
    Given(u32, String),
    Find,
}

impl Asked {
    /// The register that the library is given where none has to be found.
    pub fn value(&self) -> u32 {
        match self {
            Asked::Given(register, _) => *register,
            Asked::Reset | Asked::Find => RESET,
        }
    }

    /// The register as it was typed.
    pub fn typed(&self) -> Option<&str> {
        match self {
            Asked::Given(_, typed) => Some(typed),
            Asked::Reset | Asked::Find => None,
        }
    }
}

/// A command with all that belongs to it.
pub struct Call {
    pub command: &'static Command,
    /// The table of commands it was looked up in.
    pub commands: &'static [Command],
    pub operands: Vec<OsString>,
    pub register: Asked,
    /// The bit of its first byte at which a frame starts, if one is named.
    pub start: Option<u8>,
    /// The other options by name, with their values.
    pub options: Vec<(&'static str, OsString)>,
}

impl Call {
    pub fn has(&self, option: &Opt) -> bool {
        self.value(option).is_some()
    }

    pub fn value(&self, option: &Opt) -> Option<&OsStr> {
        let mut options = self.options.iter();
        let found = options.find(|(name, _)| *name == option.name);
        found.map(|(_, value)| value.as_os_str())
    }

    /// The file that an option names.
    pub fn file(&self, option: &Opt) -> Option<&Path> {
        self.value(option).map(Path::new)
    }

    /// The files that it reads, as they were named, with what each one is.
    pub fn inputs(&self) -> Vec<(String, &OsStr)> {
        let mut inputs = Vec::new();
        for (index, word) in self.operands.iter().enumerate() {
            if let Some(Operand::Input(name) | Operand::Inputs(name)) = self.command.operand(index)
            {
                inputs.push((name.to_string(), word.as_os_str()));
            }
        }
        let options = self.command.options.iter();
        for option in options.filter(|option| option.kind == Kind::Input) {
            let name = format!("--{}", option.name);
            inputs.extend(self.value(option).map(|word| (name, word)));
        }
        inputs
    }

    pub fn json(&self) -> bool {
        self.has(&options::JSON)
    }

    /// A number among the operands, as `read` reads it; `kind` says what it is to be.
    pub fn number<T>(
        &self,
        operand: usize,
        kind: &str,
        read: impl Fn(&str) -> Option<T>,
    ) -> Result<T, Fault> {
        let word = self.operands[operand].to_str().and_then(read);
        word.ok_or_else(|| {
            let name = self.command.operands[operand].name();
            self.command.wrong(&format!("{name} is not {kind}"))
        })
    }
}
