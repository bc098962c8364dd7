//! A line on the terminal that says how far a long work is. Where standard error is no terminal, nothing is written.

use std::io::{self, IsTerminal, Write};

pub struct Progress {
    terminal: bool,
    total: usize,
}

impl Progress {
    pub fn of(total: usize) -> Progress {
        Progress { terminal: io::stderr().is_terminal(), total }
    }

    /// Writes over the line: so many are done, and this comes next. A terminal that takes nothing is no reason to stop.
    pub fn next(&self, done: usize, what: &str) {
        if self.terminal {
            let _ = write!(io::stderr(), "\r\x1b[K{} of {}: {what}", done + 1, self.total);
        }
    }
}

/// The line is gone when the work is done.
impl Drop for Progress {
    fn drop(&mut self) {
        if self.terminal {
            let _ = write!(io::stderr(), "\r\x1b[K");
        }
    }
}
