//! Standard output and standard error.

use crate::fault::Fault;
use clevisroot_sys::descriptors::standard_output_was_open;
use std::io::{self, ErrorKind, Write};

/// Standard output. A reader that has gone away has had what it wanted.
pub struct Screen {
    /// The reader has gone away.
    pub reader_gone: bool,
}

impl Screen {
    pub fn open() -> Result<Screen, Fault> {
        match standard_output_was_open() {
            true => Ok(Screen { reader_gone: false }),
            false => Err(Fault::access("standard output", "it is closed")),
        }
    }

    pub fn print(&mut self, text: &str) -> Result<(), Fault> {
        if self.reader_gone {
            return Ok(());
        }
        let mut out = io::stdout().lock();
        let written = out.write_all(text.as_bytes()).and_then(|()| out.flush());
        match written {
            Err(error) if error.kind() == ErrorKind::BrokenPipe => self.reader_gone = true,
            Err(error) => return Err(Fault::access("standard output", error)),
            Ok(()) => {}
        }
        Ok(())
    }
}

/// Prints a text that is the whole answer.
pub fn print(text: &str) -> Result<(), Fault> {
    Screen::open()?.print(text)
}

/// Prints to standard error. If that fails too, the exit status is all there is.
pub fn complain(message: &str) {
    // In one piece, so that two tools of a pipe do not mix their lines.
    let line = format!("clevisroot: {message}\n");
    let _ = io::stderr().write_all(line.as_bytes());
}
