//! The options: one entry each, from which parsing, `--help`, the manual page and the completions
//! are made. A command names the ones it takes.

/// What an option takes.
#[derive(Clone, Copy, PartialEq, Eq)]
pub enum Kind {
    Flag,
    /// A register: decimal, or hex after `0x`.
    Register,
    /// A register, or the word `find`.
    RegisterOrFind,
    /// The number of a bit.
    Start,
    /// The name of a file that is read; `-` is standard input.
    Input,
    /// The name of a file that is written.
    Output,
    /// A name that a person gives.
    Name,
}

pub struct Opt {
    pub name: &'static str,
    pub kind: Kind,
    /// What it does, in a line.
    pub about: &'static str,
}

pub const REGISTER: Opt = Opt {
    name: "register",
    kind: Kind::Register,
    about: "the filler register before the first symbol, else 8388607 (reset)",
};

pub const REGISTER_OR_FIND: Opt = Opt {
    name: "register",
    kind: Kind::RegisterOrFind,
    about: "the filler register before the first symbol, or find it from the points",
};

pub const START: Opt = Opt {
    name: "start",
    kind: Kind::Start,
    about: "the bit of its first byte at which a frame starts, 0 to 7 (0 if not given)",
};

pub const PAIR_TABLES: Opt = Opt {
    name: "tables",
    kind: Kind::Input,
    about: "of report: the table set of a pair whose points are read here",
};

pub const PAIR_SENT: Opt = Opt {
    name: "sent",
    kind: Kind::Input,
    about: "of report: the frames that were sent on that pair",
};

pub const PAIR_POINTS: Opt = Opt {
    name: "points",
    kind: Kind::Input,
    about: "of report: the points that came of them",
};

pub const PAIR_NAME: Opt = Opt {
    name: "pair",
    kind: Kind::Name,
    about: "of report: the name of that pair, else that of its points file",
};

pub const OUT: Opt = Opt {
    name: "out",
    kind: Kind::Output,
    about: "the result into a file: points of encode, frame of read or nearest, lists of order",
};

pub const SVG: Opt = Opt {
    name: "svg",
    kind: Kind::Output,
    about: "a picture of the points and the bit loading",
};

pub const HTML: Opt = Opt {
    name: "html",
    kind: Kind::Output,
    about: "a page that prints on one sheet a pair",
};

pub const ALL: Opt = Opt {
    name: "all",
    kind: Kind::Flag,
    about: "every loaded tone in t' order, not only those that are farthest off",
};

pub const STOP: Opt = Opt {
    name: "stop",
    kind: Kind::Flag,
    about: "end at the first symbol that is refused",
};

pub const PLAIN: Opt = Opt {
    name: "plain",
    kind: Kind::Flag,
    about: "of map and point: the answer of the plain mapper, which nobody tuned",
};

pub const CSV: Opt = Opt {
    name: "csv",
    kind: Kind::Flag,
    about: "a row a pair instead of text",
};

pub const JSON: Opt = Opt {
    name: "json",
    kind: Kind::Flag,
    about: "one JSON object instead of text",
};

/// All of them, in the order of the help.
pub const OPTIONS: [&Opt; 15] = [
    &REGISTER,
    &REGISTER_OR_FIND,
    &START,
    &PAIR_TABLES,
    &PAIR_SENT,
    &PAIR_POINTS,
    &PAIR_NAME,
    &OUT,
    &SVG,
    &HTML,
    &ALL,
    &STOP,
    &PLAIN,
    &CSV,
    &JSON,
];

impl Opt {
    /// The option as a form of a call shows it.
    pub fn form(&self) -> String {
        match self.value() {
            Some(value) => format!("--{} {value}", self.name),
            None => format!("--{}", self.name),
        }
    }

    /// The word that stands for its value, none if it takes none.
    pub fn value(&self) -> Option<&'static str> {
        match self.kind {
            Kind::Flag => None,
            Kind::Register | Kind::Start => Some("N"),
            Kind::RegisterOrFind => Some("N|find"),
            Kind::Input | Kind::Output => Some("FILE"),
            Kind::Name => Some("NAME"),
        }
    }
}
