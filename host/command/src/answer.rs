//! Standard output, for what is printed.
use crate::system;
use std::io::{stdout, Error, Result, StdoutLock, Write};

/// Fails where standard output was closed: the standard library would have what is written there
/// vanish, and the status would say that all is well.
pub struct Answer(StdoutLock<'static>);

impl Answer {
    pub fn new() -> Answer {
        Answer(stdout().lock())
    }
}

impl Write for Answer {
    fn write(&mut self, bytes: &[u8]) -> Result<usize> {
        match system::output_was_closed() {
            true => Err(Error::other("standard output is closed")),
            false => self.0.write(bytes),
        }
    }

    fn flush(&mut self) -> Result<()> {
        self.0.flush()
    }
}
