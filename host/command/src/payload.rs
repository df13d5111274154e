//! A payload `NAME=value`: the name ends at the first `=`.
use wrapper::Entry;

pub fn name(payload: &[u8]) -> &[u8] {
    let end = payload.iter().position(|&byte| byte == b'=');
    &payload[..end.unwrap_or(payload.len())]
}

pub fn value(payload: &[u8]) -> &[u8] {
    payload.get(name(payload).len() + 1..).unwrap_or_default()
}

/// Whether a name is that of a stamp or is kept for such: no text has an entry's own field of this name.
pub fn is_reserved(name: &[u8]) -> bool {
    name == b"_BOOT_ID" || name.starts_with(b"__")
}

/// The values that an entry has of a field, in the order of its items.
pub fn values<'a>(entry: &'a Entry, field: &'a [u8]) -> impl Iterator<Item = &'a [u8]> {
    let of_it = entry.payloads.iter().filter(move |it| name(it) == field);
    of_it.map(|payload| value(payload))
}
