//! One file by the library's plain reader, which goes over the ENTRY objects and uses no index. The entries
//! come by their places, what they say of themselves from their own words, and their payloads item by
//! item. Each answer judges the file anew, so nothing is asked for that is not printed.
use crate::image::{bytes, is_compact, word, SIZE};
use wrapper::{plain, Entry, Offset, Refusal};

/// Where an ENTRY has its words, and from where on its items.
const SEQNUM: u64 = 16;
const REALTIME: u64 = 24;
const MONOTONIC: u64 = 32;
const BOOT_ID: u64 = 40;
const ITEMS: u64 = 64;

/// The entry at an offset that the reader answered, without its payloads.
pub fn at(image: &[u8], offset: Offset) -> Entry<'_> {
    let word = |at: u64| word(image, offset.0 + at);
    Entry {
        offset,
        seqnum: word(SEQNUM),
        realtime: word(REALTIME),
        monotonic: word(MONOTONIC),
        boot_id: bytes(image, offset.0 + BOOT_ID),
        payloads: Vec::new(),
    }
}

/// The payloads of its items, which are as many as its size says.
pub fn payloads(image: &[u8], offset: Offset) -> Vec<&[u8]> {
    let item = if is_compact(image) { 4 } else { 16 };
    let count = (word(image, offset.0 + SIZE) - ITEMS) / item;
    let payload = |place| plain::item(image, offset, place).expect("it has so many");
    (0..count).map(payload).collect()
}

/// All entries in order, without their payloads.
pub fn entries(image: &[u8]) -> Result<Vec<Entry<'_>>, Refusal> {
    let all = places(|place| plain::entry(image, place))?;
    Ok(all.into_iter().map(|offset| at(image, offset)).collect())
}

/// Those that hold all of some payloads, without their own.
pub fn holding<'a>(image: &'a [u8], payloads: &[Vec<u8>]) -> Result<Vec<Entry<'a>>, Refusal> {
    let holding = |payload: &Vec<u8>| places(|place| plain::by_payload(image, payload, place));
    let mut lists = payloads.iter().map(holding);
    let mut all = lists.next().transpose()?.unwrap_or_default();
    for others in lists {
        let others = others?;
        all.retain(|offset| others.contains(offset));
    }
    Ok(all.into_iter().map(|offset| at(image, offset)).collect())
}

/// What a lookup answers at the places from 0 on.
fn places(lookup: impl Fn(u64) -> Result<Option<Offset>, Refusal>) -> Result<Vec<Offset>, Refusal> {
    let mut all = Vec::new();
    while let Some(offset) = lookup(all.len() as u64)? {
        all.push(offset);
    }
    Ok(all)
}

/// The payloads of a field, by falling DATA offset.
pub fn values<'a>(image: &'a [u8], name: &[u8]) -> Result<Vec<&'a [u8]>, Refusal> {
    // An empty part does not tell a refusal from none.
    plain::entry(image, 0)?;
    let value = |place| plain::value(image, name, place);
    Ok((0..).map_while(value).collect())
}
