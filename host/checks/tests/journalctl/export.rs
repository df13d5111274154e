//! Entries as `journalctl -o export` shows them.
use std::fmt::Write;

use reading::image::id;
use reading::layout::header;
use wrapper::Offset;

/// The lines before the fields, and the payloads of the fields in their order.
#[derive(Clone, Debug, PartialEq, Eq)]
pub struct Entry {
    pub head: [String; 4],
    pub payloads: Vec<Vec<u8>>,
}

/// The fields that the head shows already.
const BOOT_ID: &[u8] = b"_BOOT_ID=";

/// An id as journalctl prints it.
fn hex(id: [u8; 16]) -> String {
    id.iter().fold(String::new(), |mut text, byte| {
        write!(text, "{byte:02x}").expect("a string takes all");
        text
    })
}

/// The entry at an offset, by the archive's lookups. A cursor has the sequence number's id, the
/// sequence number, the boot's id, both times and xor_hash.
pub fn looked_up(image: &[u8], offset: Offset) -> Entry {
    let stamps = wrapper::stamps(image, offset).expect("it opens");
    let stamps = stamps.expect("it is committed");
    let items = (0..stamps.items).map(|place| wrapper::item(image, offset, place));
    let items = items.map(|item| item.expect("it has so many"));
    let mut payloads: Vec<Vec<u8>> = items.map(<[u8]>::to_vec).collect();
    let hashes = payloads.iter().map(|it| wrapper::hash_lookup3(it));
    let xor_hash = hashes.fold(0, |xor, hash| xor ^ hash);
    payloads.retain(|it| !it.starts_with(BOOT_ID));

    let boot_id = hex(stamps.boot_id);
    let seqnum_id = hex(id(image, header::SEQNUM_ID));
    let wrapper::Stamps {
        seqnum,
        realtime,
        monotonic,
        ..
    } = stamps;
    let head = [
        format!(
            "__CURSOR=s={seqnum_id};i={seqnum:x};b={boot_id};m={monotonic:x};t={realtime:x};x={xor_hash:x}"
        ),
        format!("__REALTIME_TIMESTAMP={realtime}"),
        format!("__MONOTONIC_TIMESTAMP={monotonic}"),
        format!("_BOOT_ID={boot_id}"),
    ];
    Entry { head, payloads }
}

/// The part of the text up to a line's end, and what is after that.
pub fn line(text: &[u8]) -> (&[u8], &[u8]) {
    let end = text.iter().position(|&byte| byte == b'\n');
    let end = end.expect("every line ends");
    (&text[..end], &text[end + 1..])
}

/// The entries in a text of journalctl. A field is a line `NAME=value`; or, for a value that is not
/// text of one line, a line `NAME`, the value's length in 8 bytes, the value and a line's end. An
/// empty line ends an entry.
pub fn parsed(mut text: &[u8]) -> Vec<Entry> {
    let mut entries = Vec::new();
    while !text.is_empty() {
        let mut head = || loop {
            let (start, rest) = line(text);
            text = rest;
            // From systemd 254 on the sequence number and its id have lines of their own; the cursor has
            // them in any version.
            if !start.starts_with(b"__SEQNUM") {
                return String::from_utf8(start.to_vec()).expect("the head is text");
            }
        };
        let head = std::array::from_fn(|_| head());
        let mut payloads = Vec::new();
        loop {
            let (start, rest) = line(text);
            text = rest;
            if start.is_empty() {
                break;
            }
            if start.contains(&b'=') {
                payloads.push(start.to_vec());
                continue;
            }
            let (length, rest) = text.split_at(8);
            let length = u64::from_le_bytes(length.try_into().expect("8 bytes"));
            let (value, rest) = rest.split_at(length as usize);
            assert_eq!(rest[0], b'\n');
            payloads.push([start, b"=", value].concat());
            text = &rest[1..];
        }
        entries.push(Entry { head, payloads });
    }
    entries
}
