//! A line on standard error that says how far a long stream has come.

use std::io::{self, IsTerminal, Write};
use std::time::{Duration, Instant};

/// Work that takes no longer needs no progress line.
const QUIET_TIME: Duration = Duration::from_secs(1);
const INTERVAL: Duration = Duration::from_millis(250);

pub struct Progress {
    started: Instant,
    shown: Option<Instant>,
    terminal: bool,
}

impl Progress {
    pub fn new() -> Progress {
        Progress {
            started: Instant::now(),
            shown: None,
            terminal: io::stderr().is_terminal(),
        }
    }

    /// So many symbols are done.
    pub fn show(&mut self, symbols: usize) {
        if !self.terminal || self.started.elapsed() < QUIET_TIME {
            return;
        }
        if self.shown.is_some_and(|shown| shown.elapsed() < INTERVAL) {
            return;
        }
        self.shown = Some(Instant::now());
        let seconds = self.started.elapsed().as_secs();
        // If standard error is gone, nobody waits for this.
        let _ = write!(io::stderr(), "\r{symbols} symbols, {seconds} s\x1b[K");
    }

    /// Takes the line away, before anything else is printed.
    pub fn clear(&mut self) {
        if self.shown.take().is_some() {
            let _ = write!(io::stderr(), "\r\x1b[K");
        }
    }
}

impl Drop for Progress {
    /// A fault may be printed next.
    fn drop(&mut self) {
        self.clear();
    }
}
