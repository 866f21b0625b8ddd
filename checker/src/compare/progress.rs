//! How far the comparison is, on a terminal.

use std::io::{self, IsTerminal, Write};
use std::time::{Duration, Instant};

/// Between two updates.
const PAUSE: Duration = Duration::from_millis(250);

/// A line on standard error that is written again and again. Nothing is
/// written where standard error is no terminal.
pub struct Progress {
    terminal: bool,
    next: Instant,
    /// How many characters are to be overwritten.
    width: usize,
}

impl Progress {
    pub fn new() -> Progress {
        Progress {
            terminal: io::stderr().is_terminal(),
            next: Instant::now(),
            width: 0,
        }
    }

    /// Shows the text, if the last update is long enough ago.
    pub fn update(&mut self, text: impl FnOnce() -> String) {
        if self.terminal && Instant::now() >= self.next {
            self.write(&text());
            self.next = Instant::now().checked_add(PAUSE).unwrap_or(self.next);
        }
    }

    /// Takes the text away, before other lines are printed.
    pub fn clear(&mut self) {
        if self.width > 0 {
            self.write("");
            let _ = io::stderr().write_all(b"\r");
        }
    }

    fn write(&mut self, text: &str) {
        let width = self.width;
        let _ = write!(io::stderr(), "\r{text:<width$}");
        self.width = text.chars().count();
    }
}

impl Drop for Progress {
    fn drop(&mut self) {
        self.clear();
    }
}
