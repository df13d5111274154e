//! The calls on entries as text, in the Journal Export Format.
use crate::call;

/// A refusal, and nothing else; or the length of the text at the front of the buffer, 0 where there is
/// no such entry.
#[repr(C)]
#[derive(Clone, Copy, Debug, Default, PartialEq, Eq)]
pub struct Text {
    pub refusal: u64,
    pub len: u64,
}

/// A refusal, and nothing else; or both times, the boot id in two words, and the length of the fields at
/// the front of the buffer.
#[repr(C)]
#[derive(Clone, Copy, Debug, Default, PartialEq, Eq)]
pub struct Imported {
    pub refusal: u64,
    pub realtime: u64,
    pub monotonic: u64,
    pub boot_low: u64,
    pub boot_high: u64,
    pub len: u64,
}

/// The text of a committed entry, to the front of the buffer. Where the call is refused, and after the
/// text, the buffer is as it was.
#[inline]
pub fn export(image: &[u8], entry: u64, text: &mut [u8]) -> Text {
    unsafe { call!(journal_export(read image, number entry, write text) -> Text) }
}

/// The text of an entry that is given by its stamps and an append's fields: answers as `export`, but that
/// there always is an entry.
#[inline]
pub fn text(
    realtime: u64,
    monotonic: u64,
    boot: &[u8; 16],
    fields: &[u8],
    text: &mut [u8],
) -> Text {
    unsafe {
        call!(journal_text(
            number realtime, number monotonic, array boot, read fields, write text
        ) -> Text)
    }
}

/// The stamps of the one entry that a text is; its fields, as an append takes them, to the front of the
/// buffer. Where the call is refused, and after the fields, the buffer is as it was.
#[inline]
pub fn import(text: &[u8], fields: &mut [u8]) -> Imported {
    unsafe { call!(journal_import(read text, write fields) -> Imported) }
}
