//! What an append is asked for, and refusal 16.
use super::image::{le32, name_of};
use super::refusal::clause::*;

/// An append's request. `fields` is one buffer: "for each, a 4-byte length and the payload,
/// filling it exactly".
#[derive(Clone, Copy, Debug)]
pub struct Request<'a> {
    pub machine_id: [u8; 16],
    pub boot_id: [u8; 16],
    pub seqnum: u64,
    pub realtime: u64,
    pub monotonic: u64,
    pub fields: &'a [u8],
}

/// The payloads of a buffer, repeats too; none where it is badly packed.
pub fn unpacked(fields: &[u8]) -> Option<Vec<&[u8]>> {
    let mut payloads = Vec::new();
    let mut rest = fields;
    while !rest.is_empty() {
        if rest.len() < 4 {
            return None;
        }
        let length = le32(rest, 0) as usize;
        if rest.len() - 4 < length {
            return None;
        }
        payloads.push(&rest[4..4 + length]);
        rest = &rest[4 + length..];
    }
    Some(payloads)
}

/// A buffer of payloads.
pub fn packed(payloads: &[&[u8]]) -> Vec<u8> {
    let mut fields = Vec::new();
    for payload in payloads {
        fields.extend((payload.len() as u32).to_le_bytes());
        fields.extend(*payload);
    }
    fields
}

/// 16: "fields badly packed, none or above 64 (repeats counted); payload above 4,096 bytes or
/// without `=`; name not 1 to 64 of A-Z, 0-9, _ or starting with a digit".
pub fn sixteen(fields: &[u8], found: &mut Vec<Clause>) {
    let Some(payloads) = unpacked(fields) else {
        found.push(BADLY_PACKED);
        return;
    };
    if payloads.is_empty() {
        found.push(NO_FIELDS);
    }
    if payloads.len() > 64 {
        found.push(ABOVE_64_FIELDS);
    }
    for payload in payloads {
        if payload.len() > 4_096 {
            found.push(LONG_PAYLOAD);
        }
        let Some(name) = name_of(payload) else {
            found.push(NO_SIGN_IN_FIELD);
            continue;
        };
        if name.is_empty() {
            found.push(EMPTY_NAME);
        }
        if name.len() > 64 {
            found.push(LONG_NAME);
        }
        if !name
            .iter()
            .all(|byte| matches!(byte, b'A'..=b'Z' | b'0'..=b'9' | b'_'))
        {
            found.push(NAME_BYTES);
        }
        if matches!(name.first(), Some(b'0'..=b'9')) {
            found.push(NAME_DIGIT);
        }
    }
}

/// "A payload repeated in it counts once": the payloads at their first places, in input order.
pub fn distinct<'a>(payloads: &[&'a [u8]]) -> Vec<&'a [u8]> {
    let mut distinct: Vec<&[u8]> = Vec::new();
    for payload in payloads {
        if !distinct.contains(payload) {
            distinct.push(payload);
        }
    }
    distinct
}
