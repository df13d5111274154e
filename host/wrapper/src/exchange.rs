//! Entries as text in the Journal Export Format, for other banks and from them.
//!
//! A text is one entry: its wall time, monotonic time and boot id, then its fields, and an empty line. Each
//! field is a line `NAME=value`; or, where the value has other bytes than 9 and 32 to 126, a line with the
//! name, the length of the value in 8 bytes, little-endian, the value and a newline. Reading takes the line
//! for a value with any byte but 10, and the other form for any value.
use crate::fields::Fields;
use crate::lookups::Offset;
use crate::pages::Entry;
use crate::raw;
use crate::refusal::Refusal;

/// An entry on its way to another file: it keeps its times, boot id and fields, and gets its sequence number
/// there.
#[derive(Clone, Debug, PartialEq, Eq)]
pub struct Exchanged {
    pub realtime: u64,
    pub monotonic: u64,
    pub boot_id: [u8; 16],
    pub fields: Fields,
}

/// All payloads go with it, also those that no text has.
impl From<&Entry<'_>> for Exchanged {
    fn from(entry: &Entry) -> Exchanged {
        let mut fields = Fields::new();
        for payload in &entry.payloads {
            let short = "it is a part of an image";
            fields.add_payload(payload).expect(short);
        }
        Exchanged {
            realtime: entry.realtime,
            monotonic: entry.monotonic,
            boot_id: entry.boot_id,
            fields,
        }
    }
}

/// The lines of the stamps at their longest, with the empty line: 42, 43, 42 and 1.
const STAMPS: usize = 128;
/// An entry has at most so many fields, of so many bytes each: 16.
const MOST_FIELDS: usize = 64;
const LONGEST_PAYLOAD: usize = 4_096;
/// What a field has in a text beside its payload, at most: its length and two newlines, without `=`.
const FRAME: usize = 9;
/// What a field has in a packed buffer beside its payload.
const HEAD: usize = 4;

/// A text has at most so many bytes: a buffer of this length is never too short.
pub const LONGEST_TEXT: usize = STAMPS + MOST_FIELDS * (LONGEST_PAYLOAD + FRAME);

/// The text of a committed entry; none at any other offset. Payloads named `_BOOT_ID` or with two
/// underscores in front are not in it; 16 if the others are not ones that an append would take.
///
/// ```
/// use wrapper::{by_seqnum, export, import, Offset};
///
/// let image = std::fs::read("../data/corpus/bullseye-k1-c0-online.journal")?;
/// let entry = by_seqnum(&image, 3)?.expect("it has more than three");
/// let text = export(&image, entry)?.expect("it is committed");
/// assert!(text.starts_with(b"__REALTIME_TIMESTAMP=1794752624544239\n__MONOTONIC_TIMESTAMP="));
/// assert!(text.ends_with(b"\n\n"));
///
/// // The boot id is among the stamps and only there, though journald writes it as a field too.
/// assert_eq!(String::from_utf8(text.clone())?.matches("_BOOT_ID=").count(), 1);
/// assert_eq!(import(&text)?.fields.payloads().count(), 14);
///
/// assert_eq!(export(&image, Offset(256))?, None);
/// # Ok::<(), Box<dyn std::error::Error>>(())
/// ```
pub fn export(image: &[u8], entry: Offset) -> Result<Option<Vec<u8>>, Refusal> {
    let mut text = vec![0; LONGEST_TEXT];
    let len = export_into(image, entry, &mut text)?;
    Ok(len.map(|len| cut(text, len)))
}

/// The same to the front of a buffer: the length of the text. 28, and the buffer is as it was, if it is too
/// short; its other bytes always are.
pub fn export_into(image: &[u8], entry: Offset, text: &mut [u8]) -> Result<Option<usize>, Refusal> {
    // A text has bytes.
    let len = written(raw::export(image, entry.0, text))?;
    Ok((len > 0).then_some(len))
}

/// The text of an entry without its file. A host that has read many entries by pages makes their texts so,
/// and no file is opened for each.
///
/// ```
/// use wrapper::{import, text, Exchanged, Fields};
///
/// let mut fields = Fields::new();
/// fields.add("LOT", "12")?.add("NOTE", "5 \u{b0}C")?;
/// let entry = Exchanged { realtime: 9, monotonic: 50, boot_id: [7; 16], fields };
/// let bytes = text(&entry)?;
/// assert_eq!(
///     bytes,
///     b"__REALTIME_TIMESTAMP=9\n__MONOTONIC_TIMESTAMP=50\n_BOOT_ID=07070707070707070707070707070707\n\
///       LOT=12\nNOTE\n\x05\0\0\0\0\0\0\x005 \xc2\xb0C\n\n"
/// );
/// assert_eq!(import(&bytes)?, entry);
///
/// let mut fields = Fields::new();
/// fields.add("_BOOT_ID", "not in a text, and there is no other field")?;
/// let refusal = text(&Exchanged { fields, ..entry }).expect_err("it has nothing to tell");
/// assert_eq!(refusal.number(), 16);
/// # Ok::<(), wrapper::Refusal>(())
/// ```
pub fn text(entry: &Exchanged) -> Result<Vec<u8>, Refusal> {
    let room = STAMPS + entry.fields.packed().len() + MOST_FIELDS * (FRAME - HEAD);
    let mut text = vec![0; room.min(LONGEST_TEXT)];
    let len = text_into(entry, &mut text)?;
    Ok(cut(text, len))
}

/// The same to the front of a buffer, as `export_into`.
pub fn text_into(entry: &Exchanged, text: &mut [u8]) -> Result<usize, Refusal> {
    let Exchanged {
        realtime,
        monotonic,
        boot_id,
        fields,
    } = entry;
    written(raw::text(
        *realtime,
        *monotonic,
        boot_id,
        fields.packed(),
        text,
    ))
}

/// The one entry that a text is: 23 if it is none, 24 if a stamp is missing, and 16 if its fields are not
/// ones that an append would take. Other names with two underscores in front are passed over, so that what
/// journalctl exports is taken too.
///
/// ```
/// use wrapper::import;
///
/// let text = b"__CURSOR=s=1\n_BOOT_ID=0123456789abcdef0123456789abcdef\nLOT=12\nLOT=13\n\
///              __REALTIME_TIMESTAMP=9\n__MONOTONIC_TIMESTAMP=0050\n\n";
/// let entry = import(text)?;
/// assert_eq!((entry.realtime, entry.monotonic, entry.boot_id[1]), (9, 50, 0x23));
/// assert!(entry.fields.payloads().eq([b"LOT=12", b"LOT=13"]));
///
/// let cut = import(&text[..text.len() - 1]).expect_err("the empty line is missing");
/// assert_eq!(cut.number(), 23);
/// let bare = import(b"LOT=12\n\n").expect_err("it has no stamps");
/// assert_eq!(bare.number(), 24);
/// # Ok::<(), wrapper::Refusal>(())
/// ```
pub fn import(text: &[u8]) -> Result<Exchanged, Refusal> {
    // Fields that pass 16 are no longer than this, and no longer than their text but for their heads.
    let most = MOST_FIELDS * (LONGEST_PAYLOAD + HEAD);
    let mut fields = vec![0; most.min(text.len() + MOST_FIELDS * HEAD)];
    let answer = raw::import(text, &mut fields);
    Refusal::check(answer.refusal)?;
    let [low, high] = [answer.boot_low, answer.boot_high].map(u128::from);
    Ok(Exchanged {
        realtime: answer.realtime,
        monotonic: answer.monotonic,
        boot_id: (low | high << 64).to_le_bytes(),
        fields: Fields::packed_so(cut(fields, answer.len as usize)),
    })
}

fn written(answer: raw::Text) -> Result<usize, Refusal> {
    Refusal::check(answer.refusal).map(|()| answer.len as usize)
}

/// The front of a buffer, without room for more.
fn cut(mut bytes: Vec<u8>, len: usize) -> Vec<u8> {
    bytes.truncate(len);
    bytes.shrink_to_fit();
    bytes
}
