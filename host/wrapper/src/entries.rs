//! The committed entries one after the other, a page at a time.
use crate::pages::{page_entries, Entry};
use crate::refusal::Refusal;
use crate::turning::{Turning, PAGE};

/// All committed entries in order, without a list of them all at once.
///
/// ```
/// let image = std::fs::read("../data/corpus/bullseye-k1-c0-online.journal")?;
/// let mut longest = 0;
/// for entry in wrapper::entries(&image)? {
///     longest = longest.max(entry.payloads.len());
/// }
/// assert_eq!(longest, 30);
///
/// // What does not open has no entries, not even the first.
/// let refusal = wrapper::entries(&image[..65_000]).expect_err("its end is missing");
/// assert_eq!(refusal.number(), 5);
/// # Ok::<(), Box<dyn std::error::Error>>(())
/// ```
pub fn entries(image: &[u8]) -> Result<Entries<'_>, Refusal> {
    Entries::new(image, 0, PAGE)
}

/// Committed entries, as `entries` has them.
#[derive(Debug)]
pub struct Entries<'a> {
    image: &'a [u8],
    place: u64,
    page: Turning,
}

impl<'a> Entries<'a> {
    /// Those from a place on, by pages of so many bytes; a record that needs more gets it.
    ///
    /// ```
    /// use wrapper::Entries;
    ///
    /// let image = std::fs::read("../data/corpus/bullseye-k1-c0-online.journal")?;
    /// let mut last = Entries::new(&image, 35, 512)?;
    /// assert_eq!(last.next().map(|entry| entry.seqnum), Some(36));
    /// assert_eq!(last.next().map(|entry| entry.seqnum), Some(37));
    /// assert_eq!(last.next(), None);
    /// # Ok::<(), Box<dyn std::error::Error>>(())
    /// ```
    pub fn new(image: &'a [u8], place: u64, page: usize) -> Result<Entries<'a>, Refusal> {
        let page = Turning::new(page);
        let mut entries = Entries { image, place, page };
        entries.turn()?;
        Ok(entries)
    }

    fn turn(&mut self) -> Result<(), Refusal> {
        self.page.turn(|page| {
            let filled = page_entries(self.image, self.place, page)?;
            self.place += filled.count;
            Ok((filled.count, filled.next))
        })
    }
}

impl<'a> Iterator for Entries<'a> {
    type Item = Entry<'a>;

    fn next(&mut self) -> Option<Entry<'a>> {
        self.turn().expect("the image opened, and it is borrowed");
        Some(self.page.take()?.entry(self.image))
    }
}
