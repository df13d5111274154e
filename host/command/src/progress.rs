//! How far a long command has come, for somebody who looks on: a line on a terminal that is written over.
use crate::done::Manner;
use std::io::{stderr, IsTerminal, Write};
use std::time::{Duration, Instant};

/// Nothing is shown before, nor more often.
const BETWEEN: Duration = Duration::from_millis(300);

pub struct Progress {
    /// None: nobody looks on.
    last: Option<Instant>,
    /// How many columns of the terminal are written.
    width: usize,
}

impl Progress {
    pub fn new(manner: &Manner) -> Progress {
        let looks_on = !manner.quiet && stderr().is_terminal();
        Progress {
            last: looks_on.then(Instant::now),
            width: 0,
        }
    }

    /// So many of all are done.
    pub fn show(&mut self, done: usize, all: usize) {
        if self.last.is_some_and(|last| last.elapsed() >= BETWEEN) {
            self.last = Some(Instant::now());
            self.write(&format!("{done} of {all} entries"));
        }
    }

    /// Leaves nothing of it on the terminal.
    pub fn clear(&mut self) {
        if self.width > 0 {
            self.write("");
            self.width = 0;
        }
    }

    /// Where it can't be written, nobody misses it.
    fn write(&mut self, words: &str) {
        let back = if words.is_empty() { "\r" } else { "" };
        let _ = write!(stderr(), "\r{words:<width$}{back}", width = self.width);
        self.width = words.len();
    }
}

impl Drop for Progress {
    fn drop(&mut self) {
        self.clear();
    }
}
