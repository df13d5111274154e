//! A page that is read record by record and then filled again, for what comes page by page.
use crate::records::Records;

/// Each page is a call that opens the images anew, so that a page is large beside a record: the longest
/// image is opened some eight times.
pub const PAGE: usize = 1 << 20;

#[derive(Debug)]
pub struct Turning {
    records: Records,
    /// The records of this page that were not read yet.
    left: u64,
    /// The length of the first record after this page, 0 if there is none.
    next: u64,
}

impl Turning {
    /// Nothing was asked for yet. A page has so many bytes, or more where a record needs more.
    pub fn new(page: usize) -> Turning {
        Turning {
            records: Records::new(vec![0; page]),
            left: 0,
            next: 1,
        }
    }

    /// Fills the page again where all of its records were read and there are more. `fill` writes the
    /// next page, and answers how many records are on it and how long the first one after it is. A
    /// first page may be too short for a record; from then on it has room for the next one.
    pub fn turn<E>(
        &mut self,
        fill: impl FnOnce(&mut [u8]) -> Result<(u64, u64), E>,
    ) -> Result<(), E> {
        if self.left == 0 && self.next > 0 {
            (self.left, self.next) = fill(self.records.again(self.next as usize))?;
        }
        Ok(())
    }

    /// The records with the next one at the front, if there is one on this page.
    pub fn take(&mut self) -> Option<&mut Records> {
        self.left = self.left.checked_sub(1)?;
        Some(&mut self.records)
    }
}
