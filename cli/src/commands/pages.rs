//! `man` and `completions`: pages made from the tables of commands and options.

use crate::call::Call;
use crate::fault::Fault;
use crate::output::print;
use crate::{completions, help};

pub fn man(call: &Call) -> Result<u8, Fault> {
    print(&help::manual(call.commands)).map(|()| 0)
}

pub fn completions(call: &Call) -> Result<u8, Fault> {
    let commands = call.commands;
    let script = match call.operands[0].to_str() {
        Some("fish") => completions::fish(commands),
        Some("zsh") => completions::zsh(commands),
        _ => completions::bash(commands),
    };
    print(&script).map(|()| 0)
}
