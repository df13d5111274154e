//! Entries that are appended together, and their plan by the library's call.
use crate::ids::Id;
pub use wrapper::RefusedBatch as Refused;
use wrapper::{stores_batch, Batch, Exchanged, Request};

/// A batch has at most so many entries: 22.
pub const MOST: usize = 32;

/// Entries that go out together, numbered one after the other.
#[derive(Clone, Copy)]
pub struct Tray<'a> {
    pub machine: &'a Id,
    /// The sequence number of the first.
    pub first: u64,
    /// At most 32.
    pub entries: &'a [Exchanged],
}

impl<'a> Tray<'a> {
    /// The append of one of them alone.
    pub fn request(&self, index: usize) -> Request<'a> {
        let entry = &self.entries[index];
        Request {
            machine: self.machine,
            boot: &entry.boot_id,
            // After the greatest number there is none: 17.
            seqnum: self.first.saturating_add(index as u64),
            realtime: entry.realtime,
            monotonic: entry.monotonic,
            fields: entry.fields.packed(),
        }
    }

    /// Those before one.
    pub fn before(&self, index: usize) -> Tray<'a> {
        Tray {
            entries: &self.entries[..index],
            ..*self
        }
    }

    /// The sequence number of the last one.
    pub fn last(&self) -> Option<u64> {
        let index = self.entries.len().checked_sub(1)?;
        Some(self.request(index).seqnum)
    }

    /// The list of the stores of all of them, 1 to 32.
    pub fn stores(&self, image: &[u8]) -> Result<Vec<u8>, Refused> {
        let mut batch = Batch::new();
        for index in 0..self.entries.len() {
            let added = batch.add((&self.request(index)).into());
            added.map_err(|refusal| Refused {
                refusal,
                index: Some(index as u64),
            })?;
        }
        stores_batch(image, self.machine, batch.packed())
    }
}
