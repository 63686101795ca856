//! The line that shows on a terminal how far a command is that takes long.

use std::io::{self, IsTerminal, Write};
use std::time::{Duration, Instant};

/// When the line is first shown, and how often then.
const SHOWN_AFTER: Duration = Duration::from_secs(1);
const SHOWN_EVERY: Duration = Duration::from_millis(200);

/// The line. It goes when it is dropped.
pub struct Progress {
    due: Instant,
    shown: bool,
}

impl Progress {
    /// The line of something that begins now.
    pub fn new() -> Progress {
        Progress { due: Instant::now() + SHOWN_AFTER, shown: false }
    }

    /// Shows how far it is, if it is time to and there is a terminal.
    pub fn show(&mut self, line: impl FnOnce() -> String) {
        if Instant::now() < self.due {
            return;
        }
        self.due = Instant::now() + SHOWN_EVERY;
        if io::stderr().is_terminal() {
            let _ = write!(io::stderr(), "\r{}\x1B[K", line());
            self.shown = true;
        }
    }

    /// Takes the line away.
    pub fn clear(&mut self) {
        if self.shown {
            let _ = write!(io::stderr(), "\r\x1B[K");
            self.shown = false;
        }
    }
}

impl Drop for Progress {
    fn drop(&mut self) {
        self.clear();
    }
}
