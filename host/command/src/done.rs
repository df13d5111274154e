//! What is said of something that was done and is on the disk.
use crate::fault::said;
use crate::signals;
use std::io::{stderr, stdout, Write};
use std::time::Duration;

/// How a command that writes goes about it.
pub struct Manner {
    /// How long it waits for the file's lock.
    pub wait: Duration,
    /// Whether it says nothing of what it did.
    pub quiet: bool,
}

/// Says it. Where it can't be printed, what was done stays done, and so says the status: whoever
/// would do it again would do it twice. Standard error is told then.
pub fn say(manner: &Manner, words: &str) {
    if manner.quiet {
        return;
    }
    signals::fail_at_a_closed_pipe();
    let mut out = stdout().lock();
    if let Err(error) = writeln!(out, "{words}").and_then(|()| out.flush()) {
        let why = said(&error);
        let line = format!("journal: {words}; this was done, but could not be printed: {why}");
        // Where standard error takes nothing either, there is nobody to tell.
        let _ = writeln!(stderr(), "{line}");
    }
}
