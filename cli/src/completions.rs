//! Completions for shells, from the tables of commands and options.

use crate::call::{Command, Operand};
use crate::options::{Kind, Opt, OPTIONS};

/// The starts that a frame can have.
const STARTS: &str = "0 1 2 3 4 5 6 7";

fn names(commands: &[Command]) -> String {
    let names: Vec<&str> = commands.iter().map(|command| command.name).collect();
    names.join(" ")
}

fn options(command: &Command) -> String {
    let options = command
        .options
        .iter()
        .map(|option| format!("--{}", option.name));
    let all: Vec<String> = options.chain(["--help".to_string()]).collect();
    all.join(" ")
}

/// The words that a command's operands may be, if they are words.
fn words(command: &Command) -> String {
    let words = command.operands.iter().map(|operand| match operand {
        Operand::Word(_, words) => words.join(" "),
        Operand::Input(_) | Operand::Inputs(_) | Operand::Number(_) => String::new(),
    });
    words.collect::<Vec<String>>().join(" ").trim().to_string()
}

fn takes_files(command: &Command) -> bool {
    let mut operands = command.operands.iter();
    operands.any(|operand| matches!(operand, Operand::Input(_) | Operand::Inputs(_)))
}

/// The options whose value is the name of a file, as a pattern of the shell.
fn file_options() -> String {
    let files = OPTIONS
        .iter()
        .filter(|option| matches!(option.kind, Kind::Input | Kind::Output));
    let names: Vec<String> = files.map(|option| format!("--{}", option.name)).collect();
    names.join("|")
}

pub fn bash(commands: &[Command]) -> String {
    let mut cases = String::new();
    for command in commands {
        let files = if takes_files(command) { " -f" } else { "" };
        cases.push_str(&format!(
            "    {}) reply=\"{} {}\" files=\"{files}\" ;;\n",
            command.name,
            options(command),
            words(command)
        ));
    }
    format!(
        "# Completions of clevisroot for bash.\n\
         _clevisroot() {{\n\
         \x20 local word=\"${{COMP_WORDS[COMP_CWORD]}}\" before=\"${{COMP_WORDS[COMP_CWORD-1]}}\"\n\
         \x20 local reply=\"\" files=\"\" command=\"\" each\n\
         \x20 for each in \"${{COMP_WORDS[@]:1:COMP_CWORD-1}}\"; do\n\
         \x20   case \"$each\" in -*) ;; *) command=\"$each\"; break ;; esac\n\
         \x20 done\n\
         \x20 case \"$before\" in\n\
         \x20   {file_options}) COMPREPLY=($(compgen -f -- \"$word\")); return ;;\n\
         \x20   --register) COMPREPLY=($(compgen -W \"find 8388607\" -- \"$word\")); return ;;\n\
         \x20   --start) COMPREPLY=($(compgen -W \"{STARTS}\" -- \"$word\")); return ;;\n\
         \x20 esac\n\
         \x20 case \"$command\" in\n\
         {cases}\
         \x20   help) reply=\"{names}\" ;;\n\
         \x20   *) reply=\"{names} help --help --version\" ;;\n\
         \x20 esac\n\
         \x20 COMPREPLY=($(compgen -W \"$reply\" $files -- \"$word\"))\n\
         }}\n\
         complete -o filenames -F _clevisroot clevisroot\n",
        names = names(commands),
        file_options = file_options()
    )
}

pub fn fish(commands: &[Command]) -> String {
    let commands: String = commands.iter().map(fish_command).collect();
    format!("# Completions of clevisroot for fish.\n{commands}")
}

fn fish_command(command: &Command) -> String {
    let (name, about) = (command.name, single_quoted(command.about));
    let here = format!("complete -c clevisroot -n '__fish_seen_subcommand_from {name}'");
    let mut lines =
        format!("complete -c clevisroot -n __fish_use_subcommand -f -a {name} -d {about}\n");
    for option in command.options {
        let (name, about) = (option.name, single_quoted(option.about));
        lines.push_str(&format!(
            "{here} -l {name}{} -d {about}\n",
            fish_value(option)
        ));
    }
    if !words(command).is_empty() {
        lines.push_str(&format!(
            "{here} -f -a {}\n",
            single_quoted(&words(command))
        ));
    }
    lines
}

fn fish_value(option: &Opt) -> String {
    match option.kind {
        Kind::Flag => String::new(),
        Kind::Register => " -x".to_string(),
        Kind::RegisterOrFind => " -x -a 'find 8388607'".to_string(),
        Kind::Start => format!(" -x -a '{STARTS}'"),
        Kind::Input | Kind::Output => " -r -F".to_string(),
        Kind::Name => " -x".to_string(),
    }
}

pub fn zsh(commands: &[Command]) -> String {
    let quoted = |command: &Command| {
        let about = command.about.replace('\'', "'\\''");
        format!("    '{}:{about}'\n", command.name)
    };
    let list: String = commands.iter().map(quoted).collect();
    let cases: String = commands.iter().map(zsh_case).collect();
    format!(
        "#compdef clevisroot\n# Completions of clevisroot for zsh.\n\
         local -a commands\ncommands=(\n{list}    'help:the help of a command'\n)\n\
         if (( CURRENT == 2 )); then\n  _describe command commands\nelse\n  \
         local command=$words[2]\n  shift words; (( CURRENT-- ))\n  case $command in\n{cases}  \
         esac\nfi\n"
    )
}

fn zsh_case(command: &Command) -> String {
    let options = command.options.iter().map(|option| zsh_option(option));
    let operands = command.operands.iter().map(|operand| match operand {
        Operand::Input(name) => format!("':{name}:_files'"),
        Operand::Inputs(name) => format!("'*:{name}:_files'"),
        Operand::Number(name) => format!("':{name}: '"),
        Operand::Word(name, words) => format!("':{name}:({})'", words.join(" ")),
    });
    let specs: Vec<String> = options.chain(operands).collect();
    format!("    {}) _arguments {} ;;\n", command.name, specs.join(" "))
}

fn zsh_option(option: &Opt) -> String {
    let about = option.about.replace('\'', "'\\''").replace(':', "\\:");
    let name = option.name;
    match option.kind {
        Kind::Flag => format!("'--{name}[{about}]'"),
        Kind::Register => format!("'--{name}[{about}]:N: '"),
        Kind::RegisterOrFind => format!("'--{name}[{about}]:N:(find 8388607)'"),
        Kind::Start => format!("'--{name}[{about}]:N:({STARTS})'"),
        Kind::Input | Kind::Output => format!("'--{name}[{about}]:FILE:_files'"),
        Kind::Name => format!("'--{name}[{about}]:NAME: '"),
    }
}

fn single_quoted(text: &str) -> String {
    format!("'{}'", text.replace('\\', "\\\\").replace('\'', "\\'"))
}
