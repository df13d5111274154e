//! Opening and the lookups: an image is only read.
use crate::raw;
use crate::refusal::Refusal;

/// The offset of an object in an image: of an ENTRY where a lookup answers it.
#[derive(Clone, Copy, Debug, PartialEq, Eq, PartialOrd, Ord, Hash)]
pub struct Offset(pub u64);

/// No object starts below: offsets and refusals do not meet in an answer.
const FIRST_OFFSET: u64 = 256;

/// What a committed entry says of itself, and the number of its items.
#[derive(Clone, Copy, Debug, PartialEq, Eq)]
pub struct Stamps {
    pub seqnum: u64,
    pub realtime: u64,
    pub monotonic: u64,
    pub boot_id: [u8; 16],
    pub items: u64,
}

/// Whether the image opens; or the lowest of refusals 1 to 11 that applies.
pub fn open(image: &[u8]) -> Result<(), Refusal> {
    Refusal::check(raw::open(image))
}

/// The committed entry at a place from 0.
pub fn entry(image: &[u8], place: u64) -> Result<Option<Offset>, Refusal> {
    found(raw::entry(image, place))
}

/// The first committed entry with a sequence number at or above one.
pub fn by_seqnum(image: &[u8], seqnum: u64) -> Result<Option<Offset>, Refusal> {
    found(raw::by_seqnum(image, seqnum))
}

/// The first committed entry in order with a wall time at or above one. Wall times may fall: those
/// after it may lie below, and one of them may be nearer.
pub fn by_realtime(image: &[u8], realtime: u64) -> Result<Option<Offset>, Refusal> {
    found(raw::by_realtime(image, realtime))
}

/// The committed entry holding a payload `NAME=value`, by place from 0.
pub fn by_payload(image: &[u8], payload: &[u8], place: u64) -> Result<Option<Offset>, Refusal> {
    found(raw::by_payload(image, payload, place))
}

/// The payload of an entry's item, by place from 0, as a part of the image. None also where the
/// image is refused.
pub fn item(image: &[u8], entry: Offset, place: u64) -> Option<&[u8]> {
    shown(image, raw::item(image, entry.0, place))
}

/// The payload of a field name, by place from 0, by falling DATA offset: answers as `item`.
pub fn value<'a>(image: &'a [u8], name: &[u8], place: u64) -> Option<&'a [u8]> {
    shown(image, raw::value(image, name, place))
}

/// The stamps of a committed entry; none at any other offset.
pub fn stamps(image: &[u8], entry: Offset) -> Result<Option<Stamps>, Refusal> {
    let stamps = raw::stamps(image, entry.0);
    Refusal::check(stamps.refusal)?;
    // A committed entry has items.
    if stamps.items == 0 {
        return Ok(None);
    }
    let [low, high] = [stamps.boot_low, stamps.boot_high].map(u128::from);
    Ok(Some(Stamps {
        seqnum: stamps.seqnum,
        realtime: stamps.realtime,
        monotonic: stamps.monotonic,
        boot_id: (low | high << 64).to_le_bytes(),
        items: stamps.items,
    }))
}

/// An entry's offset, 0 for none, or a refusal.
pub(crate) fn found(number: u64) -> Result<Option<Offset>, Refusal> {
    match number {
        FIRST_OFFSET.. => Ok(Some(Offset(number))),
        _ => Refusal::check(number).map(|()| None),
    }
}

/// The bytes of a part; none of the empty one.
pub(crate) fn shown(image: &[u8], part: raw::Part) -> Option<&[u8]> {
    let (at, len) = (part.at as usize, part.len as usize);
    (len > 0).then(|| &image[at..at + len])
}
