//! The plain reader: the lookups once more, in the simple way. It goes from object to object, looks at
//! each ENTRY and compares payloads byte by byte; it reads no hash table, no list of a FIELD and no
//! array.
//!
//! On each image that 1 to 11 and 14 let pass it answers what the functions of the same names in the
//! package's root do, and so it is there to be set against them. Any other image it refuses: with the
//! lowest of 1 to 11, else with 14, which a file that was cut in the middle of an append may be. 12, 13
//! and 25 are no refusals here.
//!
//! Each call judges the image anew, and then goes over all of it: this is for single answers.
//!
//! ```
//! use wrapper::{by_payload, by_seqnum, item, plain, value};
//!
//! let image = std::fs::read("../data/corpus/bullseye-k0-c0-system.journal")?;
//! let entry = plain::by_seqnum(&image, 0)?.expect("it has entries");
//! assert_eq!(by_seqnum(&image, 0), Ok(Some(entry)));
//! let payload = plain::item(&image, entry, 0).expect("an entry has items");
//! assert_eq!(item(&image, entry, 0), Some(payload));
//! assert_eq!(plain::by_payload(&image, payload, 1), by_payload(&image, payload, 1));
//! assert_eq!(plain::value(&image, b"MESSAGE", 0), value(&image, b"MESSAGE", 0));
//!
//! // A counter that is wrong does not keep the other reader from answering.
//! let mut image = image;
//! image[144] ^= 1;
//! assert_eq!(by_seqnum(&image, 0), Ok(Some(entry)));
//! let refusal = plain::by_seqnum(&image, 0).expect_err("n_objects is wrong");
//! assert_eq!(refusal.number(), 14);
//! # Ok::<(), Box<dyn std::error::Error>>(())
//! ```
use crate::lookups::{found, shown, Offset};
use crate::raw::plain as raw;
use crate::refusal::Refusal;

/// The committed entry at a place from 0.
pub fn entry(image: &[u8], place: u64) -> Result<Option<Offset>, Refusal> {
    found(raw::entry(image, place))
}

/// The first committed entry with a sequence number at or above one.
pub fn by_seqnum(image: &[u8], seqnum: u64) -> Result<Option<Offset>, Refusal> {
    found(raw::by_seqnum(image, seqnum))
}

/// The first committed entry in order with a wall time at or above one. Wall times may fall, as for
/// the other reader.
pub fn by_realtime(image: &[u8], realtime: u64) -> Result<Option<Offset>, Refusal> {
    found(raw::by_realtime(image, realtime))
}

/// The committed entry holding a payload `NAME=value`, by place from 0.
pub fn by_payload(image: &[u8], payload: &[u8], place: u64) -> Result<Option<Offset>, Refusal> {
    found(raw::by_payload(image, payload, place))
}

/// The payload of an entry's item, by place from 0, as a part of the image. None also where the
/// image is refused.
pub fn item(image: &[u8], entry: Offset, place: u64) -> Option<&[u8]> {
    shown(image, raw::item(image, entry.0, place))
}

/// The payload of a field name, by place from 0, by falling DATA offset: answers as `item`.
pub fn value<'a>(image: &'a [u8], name: &[u8], place: u64) -> Option<&'a [u8]> {
    shown(image, raw::value(image, name, place))
}
