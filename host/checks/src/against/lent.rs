//! Bytes to lend, amid others.
use std::hint::black_box;

/// Bytes at an alignment that a number gives, with other bytes before and after.
pub struct Lent {
    buffer: Vec<u8>,
    start: usize,
    end: usize,
    around: u8,
}

impl Lent {
    pub fn new(bytes: &[u8], tried: u64) -> Lent {
        let start = (tried % 9) as usize;
        let around = tried as u8 | 1;
        let mut buffer = vec![around; start];
        buffer.extend_from_slice(bytes);
        let end = buffer.len();
        buffer.resize(end + 24, around);
        Lent {
            buffer,
            start,
            end,
            around,
        }
    }

    pub fn bytes(&self) -> &[u8] {
        &self.buffer[self.start..self.end]
    }

    pub fn bytes_mut(&mut self) -> &mut [u8] {
        &mut self.buffer[self.start..self.end]
    }

    /// The bytes after a call; none where one around them changed.
    pub fn after(&mut self) -> Option<&[u8]> {
        // The compiler may take what it lent as unchanged; this makes it look at the bytes again.
        black_box(&mut self.buffer);
        let (before, after) = (&self.buffer[..self.start], &self.buffer[self.end..]);
        let same = |byte: &u8| *byte == self.around;
        (before.iter().all(same) && after.iter().all(same)).then(|| self.bytes())
    }
}
