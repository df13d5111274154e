//! An entry as text: "Write a committed entry in the Journal Export Format as systemd publishes it, its empty
//! line last".
use super::image::{id, name_of};
use super::layout::entry;
use super::lookup::{open, Journal};
use super::refusal::clause::*;
use super::request::{packed, sixteen, unpacked};

/// "__REALTIME_TIMESTAMP, __MONOTONIC_TIMESTAMP and _BOOT_ID, the entry's own stamps"
#[derive(Clone, Copy, Debug, Default, PartialEq, Eq)]
pub struct Stamps {
    pub realtime: u64,
    pub monotonic: u64,
    pub boot_id: [u8; 16],
}

pub const REALTIME: &[u8] = b"__REALTIME_TIMESTAMP";
pub const MONOTONIC: &[u8] = b"__MONOTONIC_TIMESTAMP";
pub const BOOT_ID: &[u8] = b"_BOOT_ID";

/// What is said of a text: the refusal, or 0 and the length of what was written; both 0 where there is no
/// such entry.
#[derive(Clone, Copy, Debug, Default, PartialEq, Eq)]
pub struct Text {
    pub refusal: u64,
    pub len: u64,
}

/// Whether fields of a name are no payloads of an entry's text: "named _BOOT_ID or with two underscores in
/// front".
pub fn set_apart(name: &[u8]) -> bool {
    name == BOOT_ID || name.starts_with(b"__")
}

/// "text form where each byte of the value is 9 or 32 to 126"
fn is_text(value: &[u8]) -> bool {
    let mut bytes = value.iter();
    bytes.all(|byte| matches!(byte, 9 | 32..=126))
}

/// The lines of a field that has passed 16.
fn field(payload: &[u8]) -> Vec<u8> {
    let name = name_of(payload).unwrap_or(payload);
    let value = &payload[name.len() + 1..];
    if is_text(value) {
        return [payload, b"\n"].concat();
    }
    // "otherwise the form with a 64-bit length"
    let length = (value.len() as u64).to_le_bytes();
    [name, b"\n", &length, value, b"\n"].concat()
}

/// The text of an entry with these payloads; or 16 "where the other fields fail it".
fn lines(stamps: &Stamps, mut payloads: Vec<&[u8]>) -> Result<Vec<u8>, Vec<Clause>> {
    payloads.retain(|payload| !set_apart(name_of(payload).unwrap_or(payload)));
    let mut found = Vec::new();
    sixteen(&packed(&payloads), &mut found);
    if !found.is_empty() {
        return Err(found);
    }
    // "written first in this order (decimal without leading zeros, 32 lower-case hex digits), then the items"
    let mut text = Vec::new();
    let [realtime, monotonic] = [stamps.realtime, stamps.monotonic].map(|it| it.to_string());
    let digits = stamps.boot_id.map(|byte| format!("{byte:02x}"));
    for (name, value) in [
        (REALTIME, realtime),
        (MONOTONIC, monotonic),
        (BOOT_ID, digits.concat()),
    ] {
        text.extend(field(&[name, b"=", value.as_bytes()].concat()));
    }
    for payload in payloads {
        text.extend(field(payload));
    }
    text.push(b'\n');
    Ok(text)
}

/// The text of an entry that is given by its stamps and an append's fields. Where one of these has no `=`
/// all of it is taken for its name.
pub fn text(stamps: &Stamps, fields: &[u8]) -> Result<Vec<u8>, Vec<Clause>> {
    let payloads = unpacked(fields).ok_or(vec![BADLY_PACKED])?;
    lines(stamps, payloads)
}

impl Journal<'_> {
    /// The stamps of an entry.
    pub fn stamps(&self, offset: u64) -> Stamps {
        Stamps {
            realtime: self.image.word(offset + entry::REALTIME),
            monotonic: self.image.word(offset + entry::MONOTONIC),
            boot_id: id(self.image.bytes, offset + entry::BOOT_ID),
        }
    }

    /// The text of a committed entry, none at any other offset; or 16.
    pub fn exported(&self, offset: u64) -> Result<Option<Vec<u8>>, u64> {
        if !self.committed.contains(&offset) {
            return Ok(None);
        }
        let parts = self.items(offset).into_iter();
        let payloads = parts.map(|part| part.of(self.image.bytes)).collect();
        let text = lines(&self.stamps(offset), payloads);
        text.map(Some).map_err(|found| found[0].number)
    }
}

/// The same of an image that may be refused: "in writing 1 to 11, 16 where the other fields fail it".
pub fn exported(bytes: &[u8], offset: u64) -> Result<Option<Vec<u8>>, u64> {
    open(bytes)?.exported(offset)
}

/// A text, or its refusal, into a lent buffer: "28 if the lent output is too short". Bytes behind it stay.
pub fn write(text: Result<&[u8], u64>, lent: &mut [u8]) -> Text {
    let refused = |refusal: u64| Text { refusal, len: 0 };
    let text = match text {
        Ok(text) => text,
        Err(number) => return refused(number),
    };
    match lent.get_mut(..text.len()) {
        Some(front) => {
            front.copy_from_slice(text);
            Text {
                refusal: 0,
                len: text.len() as u64,
            }
        }
        None => refused(OUTPUT_SHORT.number),
    }
}
