//! Progress of a long run, on standard error.

use std::io::{stderr, IsTerminal, Write};
use std::time::{Duration, Instant};

pub struct Progress {
    terminal: bool,
    every: Duration,
    /// None where nothing is to be shown.
    last: Option<Instant>,
}

impl Progress {
    /// On a terminal one line that is written over; elsewhere, if it is asked for, a line now and then.
    pub fn new(asked: bool) -> Progress {
        let terminal = stderr().is_terminal();
        let every = Duration::from_millis(if terminal { 250 } else { 5_000 });
        Progress { terminal, every, last: (terminal || asked).then(Instant::now) }
    }

    /// Shows a text, made only when it is time for one.
    pub fn show(&mut self, text: impl FnOnce() -> String) {
        if self.last.is_some_and(|last| last.elapsed() >= self.every) {
            self.last = Some(Instant::now());
            // Progress that cannot be written is no reason to stop.
            let _ = if self.terminal {
                write!(stderr(), "\r\x1b[K{}", text()).and_then(|()| stderr().flush())
            } else {
                writeln!(stderr(), "{}", text())
            };
        }
    }

    /// Takes the line away, before something else is printed.
    pub fn clear(&self) {
        if self.terminal && self.last.is_some() {
            let _ = write!(stderr(), "\r\x1b[K").and_then(|()| stderr().flush());
        }
    }
}
