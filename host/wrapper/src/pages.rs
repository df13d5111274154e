//! Pages: the records of many entries, or of many values, by one call that opens the image once.
//!
//! A record is words of eight bytes, little-endian. Of an entry: its offset, sequence number, wall
//! time, monotonic time, the two words of its boot id, the number of its items, and for each item
//! the place and the length of its payload. Of a value: its place and length.
use crate::lookups::Offset;
use crate::raw;
use crate::records::Records;
use crate::refusal::Refusal;

/// What is in a page: the number of records at its front, and the length in bytes of the first one
/// that found no room, 0 if none is left. Its other bytes are as they were.
#[derive(Clone, Copy, Debug, PartialEq, Eq)]
pub struct Page {
    pub count: u64,
    pub next: u64,
}

/// A committed entry. Its payloads `NAME=value` are parts of the image.
#[derive(Clone, Debug, PartialEq, Eq)]
pub struct Entry<'a> {
    pub offset: Offset,
    pub seqnum: u64,
    pub realtime: u64,
    pub monotonic: u64,
    pub boot_id: [u8; 16],
    pub payloads: Vec<&'a [u8]>,
}

/// The records of the committed entries from a place on, as many as the page has room for.
pub fn page_entries(image: &[u8], place: u64, page: &mut [u8]) -> Result<Page, Refusal> {
    filled(raw::page_entries(image, place, page))
}

/// The records of the committed entries that hold a payload, from a place on.
pub fn page_matches(
    image: &[u8],
    payload: &[u8],
    place: u64,
    page: &mut [u8],
) -> Result<Page, Refusal> {
    filled(raw::page_matches(image, payload, place, page))
}

/// The records of the payloads of a field name, by falling DATA offset, from a place on.
pub fn page_values(
    image: &[u8],
    name: &[u8],
    place: u64,
    page: &mut [u8],
) -> Result<Page, Refusal> {
    filled(raw::page_values(image, name, place, page))
}

fn filled(page: raw::Page) -> Result<Page, Refusal> {
    Refusal::check(page.refusal).map(|()| Page {
        count: page.count,
        next: page.next,
    })
}

/// All committed entries in order.
pub fn all_entries(image: &[u8]) -> Result<Vec<Entry<'_>>, Refusal> {
    let (count, mut records) = all(image, |page| page_entries(image, 0, page))?;
    Ok((0..count).map(|_| records.entry(image)).collect())
}

/// All committed entries that hold a payload.
pub fn all_matches<'a>(image: &'a [u8], payload: &[u8]) -> Result<Vec<Entry<'a>>, Refusal> {
    let (count, mut records) = all(image, |page| page_matches(image, payload, 0, page))?;
    Ok((0..count).map(|_| records.entry(image)).collect())
}

/// All payloads of a field name, by falling DATA offset: the one that first appeared last comes first,
/// which need not be the one of the newest entry.
pub fn all_values<'a>(image: &'a [u8], name: &[u8]) -> Result<Vec<&'a [u8]>, Refusal> {
    let (count, mut records) = all(image, |page| page_values(image, name, 0, page))?;
    Ok((0..count).map(|_| records.payload(image)).collect())
}

/// How much longer a page has to be than its images to hold all records there are: an item of a compact
/// file has 4 bytes in its ENTRY and 16 in the record. A regular file's records are no longer than it.
pub(crate) const RECORDS: usize = 4;

/// The number of all records there are, and the records.
fn all(
    image: &[u8],
    call: impl FnOnce(&mut [u8]) -> Result<Page, Refusal>,
) -> Result<(u64, Records), Refusal> {
    let mut page = vec![0; RECORDS * image.len()];
    let Page { count, .. } = call(&mut page)?;
    Ok((count, Records::new(page)))
}
