//! The calls of the plain reader, which judges an image by 1 to 11 and then 14. It goes over the ENTRY
//! objects, and reads no hash table, list of a FIELD or array.
use super::Part;
use crate::call;

/// The committed entry at a place: 0 for none, 1 to 11 and 14 refused, else the ENTRY's offset.
#[inline]
pub fn entry(image: &[u8], place: u64) -> u64 {
    unsafe { call!(journal_plain_entry(read image, number place) -> u64) }
}

/// The first committed entry with a sequence number at or above one: answers as `entry`.
#[inline]
pub fn by_seqnum(image: &[u8], seqnum: u64) -> u64 {
    unsafe { call!(journal_plain_by_seqnum(read image, number seqnum) -> u64) }
}

/// The first committed entry in order with a wall time at or above one: answers as `entry`.
#[inline]
pub fn by_realtime(image: &[u8], realtime: u64) -> u64 {
    unsafe { call!(journal_plain_by_realtime(read image, number realtime) -> u64) }
}

/// The committed entry holding a payload, by place: answers as `entry`.
#[inline]
pub fn by_payload(image: &[u8], payload: &[u8], place: u64) -> u64 {
    unsafe { call!(journal_plain_by_payload(read image, read payload, number place) -> u64) }
}

/// The payload of an entry's item, by place; the empty part where there is none, or the image is
/// refused.
#[inline]
pub fn item(image: &[u8], entry: u64, place: u64) -> Part {
    unsafe { call!(journal_plain_item(read image, number entry, number place) -> Part) }
}

/// The payload of a field name, by place, by falling DATA offset; the empty part as for `item`.
#[inline]
pub fn value(image: &[u8], name: &[u8], place: u64) -> Part {
    unsafe { call!(journal_plain_value(read image, read name, number place) -> Part) }
}
