//! The calls on two images, whose entries are shown as one stream.
use crate::call;

/// A step of the stream: the refusal of one of the files and which it is, 1 or 2, and nothing else;
/// or the file, its entry's offset and the places to go on with, all 0 for none.
#[repr(C)]
#[derive(Clone, Copy, Debug, Default, PartialEq, Eq)]
pub struct Merged {
    pub refusal: u64,
    pub file: u64,
    pub entry: u64,
    pub next_first: u64,
    pub next_second: u64,
}

/// A part of the image of a file, 1 or 2, by its place and length; all 0 for the empty part.
#[repr(C)]
#[derive(Clone, Copy, Debug, Default, PartialEq, Eq)]
pub struct MergedPart {
    pub file: u64,
    pub at: u64,
    pub len: u64,
}

/// What a page of the stream answers: the refusal of one of the files and which it is, 1 or 2, and
/// nothing else; or the number of records at the front of the page, the length in bytes of the first
/// one that found no room, 0 if none is left, and the places to go on with.
#[repr(C)]
#[derive(Clone, Copy, Debug, Default, PartialEq, Eq)]
pub struct MergedPage {
    pub refusal: u64,
    pub file: u64,
    pub count: u64,
    pub next: u64,
    pub next_first: u64,
    pub next_second: u64,
}

/// Of the two files' committed entries from these places on, the one to show.
#[inline]
pub fn merged(first: &[u8], second: &[u8], at_first: u64, at_second: u64) -> Merged {
    unsafe {
        call!(journal_merged(
            read first, read second, number at_first, number at_second
        ) -> Merged)
    }
}

/// The payload of that entry's item, by place; the empty part where there is none, or a file is
/// refused.
#[inline]
pub fn merged_item(
    first: &[u8],
    second: &[u8],
    at_first: u64,
    at_second: u64,
    place: u64,
) -> MergedPart {
    unsafe {
        call!(journal_merged_item(
            read first, read second, number at_first, number at_second, number place
        ) -> MergedPart)
    }
}

/// The records of the stream from these places on, as many as the page has room for. Where a file is
/// refused, and after the records, the page is as it was.
#[inline]
pub fn page_merged(
    first: &[u8],
    second: &[u8],
    at_first: u64,
    at_second: u64,
    page: &mut [u8],
) -> MergedPage {
    unsafe {
        call!(journal_page_merged(
            read first, read second, number at_first, number at_second, write page
        ) -> MergedPage)
    }
}
