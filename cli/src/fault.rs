//! What stops the tool before the library is asked, or after it has answered.

use std::fmt::Display;

/// The call itself is wrong.
const USAGE: u8 = 64;
/// A file does not say what its kind of file says.
const CONTENT: u8 = 65;
/// A file cannot be read or written.
const ACCESS: u8 = 66;

/// An exit status and the message for standard error.
#[derive(Debug)]
pub struct Fault {
    pub status: u8,
    pub message: String,
}

impl Fault {
    pub fn usage(message: impl Display) -> Fault {
        Fault {
            status: USAGE,
            message: message.to_string(),
        }
    }

    pub fn content(message: impl Display) -> Fault {
        Fault {
            status: CONTENT,
            message: message.to_string(),
        }
    }

    pub fn access(file: impl Display, error: impl Display) -> Fault {
        Fault {
            status: ACCESS,
            message: format!("{file}: {error}"),
        }
    }
}
