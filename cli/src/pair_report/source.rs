//! Where the symbols of a pair come from.

use crate::call::Asked;
use crate::files::{name_of, Unread};
use crate::json::{Fields, Json};
use crate::words::shortened;

pub struct Source {
    pub log: Option<String>,
    /// The bit of its first byte at which a frame starts.
    pub start: u8,
    /// None where the log has the symbols itself.
    pub read: Option<ReadHere>,
}

/// Points that the tool has read itself.
pub struct ReadHere {
    /// The file of the frames that were sent.
    pub sent: String,
    /// The file of the points that came.
    pub points: String,
    /// The register before the first symbol.
    register: u32,
    /// It was not given, so that it is the value at reset.
    pub assumed: bool,
}

impl Source {
    /// "log pair-7.log", "points of a.csv, sent frames of a.hex, register 4711 before the first"
    pub fn words(&self) -> String {
        let log = self.log.iter().map(|log| format!("log {log}"));
        let read = self.read.iter().map(ReadHere::words);
        let mut words: Vec<String> = log.chain(read).collect();
        if self.start > 0 {
            words.push(format!("frames start at bit {}", self.start));
        }
        words.join(", ")
    }

    /// What a sheet lists of it.
    pub fn rows(&self) -> Vec<(&'static str, String)> {
        let mut rows = Vec::new();
        rows.extend(self.log.as_ref().map(|log| ("log", shortened(log))));
        if let Some(read) = &self.read {
            let register = format!("{}{}", read.register, read.reset_words());
            rows.push(("points that came", shortened(&read.points)));
            rows.push(("frames that were sent", shortened(&read.sent)));
            rows.push(("register before the first", register));
        }
        rows
    }

    pub fn fields(&self) -> Fields {
        let text = |text: Option<&String>| text.map_or(Json::Null, Json::text);
        let read = self.read.as_ref();
        let register = read.map(|read| Json::Number(read.register.into()));
        let assumed = read.map(|read| Json::Flag(read.assumed));
        vec![
            ("log", text(self.log.as_ref())),
            ("sent", text(read.map(|read| &read.sent))),
            ("points", text(read.map(|read| &read.points))),
            ("register_before", register.unwrap_or(Json::Null)),
            ("register_assumed", assumed.unwrap_or(Json::Null)),
            ("start", Json::Number(self.start.into())),
        ]
    }
}

impl ReadHere {
    pub fn of(unread: &Unread) -> ReadHere {
        ReadHere {
            sent: name_of(&unread.sent),
            points: name_of(&unread.points),
            register: unread.register.value(),
            assumed: unread.register == Asked::Reset,
        }
    }

    fn words(&self) -> String {
        let ReadHere {
            sent,
            points,
            register,
            ..
        } = self;
        let reset = self.reset_words();
        format!(
            "points of {points}, sent frames of {sent}, register {register} before the first{reset}"
        )
    }

    fn reset_words(&self) -> &'static str {
        if self.assumed {
            ", its value at reset, for none was given"
        } else {
            ""
        }
    }
}
