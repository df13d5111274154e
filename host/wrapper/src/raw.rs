//! The archive's calls as safe functions, with the numbers that they answer. Each export is
//! declared here once; a function only passes its arguments on, so that what is tested and measured
//! through it is the archive itself. Hosts use the functions of the same names in the package's
//! root, whose answers have types.
//!
//! SAFETY of each call: as `call` has it. `read` and `array` arguments are only read.
#![allow(unsafe_code)]

mod batch;
mod boot;
mod exchange;
mod foreign;
mod merged;
pub mod plain;
mod why;

use crate::call;
pub use batch::{plan_batch, Batch};
pub use boot::{boot_meaning, BootMeaning};
pub use exchange::{export, import, text, Imported, Text};
pub use foreign::{foreign, Foreign};
pub use merged::{merged, merged_item, page_merged, Merged, MergedPage, MergedPart};
pub use why::{why, Why};

/// A part of the image by its place and length, both 0 for the empty part.
#[repr(C)]
#[derive(Clone, Copy, Debug, Default, PartialEq, Eq)]
pub struct Part {
    pub at: u64,
    pub len: u64,
}

/// The image's refusal, and nothing else; or what a committed entry says of itself, and the number
/// of its items, all 0 where there is no such entry.
#[repr(C)]
#[derive(Clone, Copy, Debug, Default, PartialEq, Eq)]
pub struct Stamps {
    pub refusal: u64,
    pub seqnum: u64,
    pub realtime: u64,
    pub monotonic: u64,
    pub boot_low: u64,
    pub boot_high: u64,
    pub items: u64,
}

/// What a page call answers: the image's refusal, and nothing else; or the number of records at the
/// front of the page, and the length in bytes of the first one that found no room, 0 if none is
/// left.
#[repr(C)]
#[derive(Clone, Copy, Debug, Default, PartialEq, Eq)]
pub struct Page {
    pub refusal: u64,
    pub count: u64,
    pub next: u64,
}

/// What an append is asked for. `fields` has for each field a 4-byte length and the payload.
#[derive(Clone, Copy, Debug)]
pub struct Request<'a> {
    pub machine: &'a [u8; 16],
    pub boot: &'a [u8; 16],
    pub seqnum: u64,
    pub realtime: u64,
    pub monotonic: u64,
    pub fields: &'a [u8],
}

/// Jenkins' lookup3 (`hashlittle2` from 0 and 0), its first word in the high half.
#[inline]
pub fn hash_lookup3(bytes: &[u8]) -> u64 {
    unsafe { call!(journal_hash_lookup3(read bytes) -> u64) }
}

/// SipHash-2-4 of `bytes` under `key`.
#[inline]
pub fn hash_siphash24(key: &[u8; 16], bytes: &[u8]) -> u64 {
    unsafe { call!(journal_hash_siphash24(array key, read bytes) -> u64) }
}

/// The lowest of refusals 1 to 11 that applies to the image, or 0: the image opens.
#[inline]
pub fn open(image: &[u8]) -> u64 {
    unsafe { call!(journal_open(read image) -> u64) }
}

/// The committed entry at a place: 0 for none, 1 to 11 refused, else the ENTRY's offset.
#[inline]
pub fn entry(image: &[u8], place: u64) -> u64 {
    unsafe { call!(journal_entry(read image, number place) -> u64) }
}

/// The first committed entry with a sequence number at or above one: answers as `entry`.
#[inline]
pub fn by_seqnum(image: &[u8], seqnum: u64) -> u64 {
    unsafe { call!(journal_by_seqnum(read image, number seqnum) -> u64) }
}

/// The first committed entry in order with a wall time at or above one: answers as `entry`.
#[inline]
pub fn by_realtime(image: &[u8], realtime: u64) -> u64 {
    unsafe { call!(journal_by_realtime(read image, number realtime) -> u64) }
}

/// The committed entry holding a payload, by place: answers as `entry`.
#[inline]
pub fn by_payload(image: &[u8], payload: &[u8], place: u64) -> u64 {
    unsafe { call!(journal_by_payload(read image, read payload, number place) -> u64) }
}

/// The payload of an entry's item, by place; the empty part where there is none, or the image is
/// refused.
#[inline]
pub fn item(image: &[u8], entry: u64, place: u64) -> Part {
    unsafe { call!(journal_item(read image, number entry, number place) -> Part) }
}

/// The payload of a field name, by place, by falling DATA offset; the empty part as for `item`.
#[inline]
pub fn value(image: &[u8], name: &[u8], place: u64) -> Part {
    unsafe { call!(journal_value(read image, read name, number place) -> Part) }
}

/// The stamps of a committed entry; all 0 where there is none, and the refusal alone where the
/// image is refused.
#[inline]
pub fn stamps(image: &[u8], entry: u64) -> Stamps {
    unsafe { call!(journal_stamps(read image, number entry) -> Stamps) }
}

/// The records of the committed entries from a place on, as many as the page has room for. Where
/// the image is refused, and after the records, the page is as it was.
#[inline]
pub fn page_entries(image: &[u8], place: u64, page: &mut [u8]) -> Page {
    unsafe { call!(journal_page_entries(read image, number place, write page) -> Page) }
}

/// The records of the committed entries that hold a payload, from a place on: answers as
/// `page_entries`.
#[inline]
pub fn page_matches(image: &[u8], payload: &[u8], place: u64, page: &mut [u8]) -> Page {
    unsafe {
        call!(journal_page_matches(read image, read payload, number place, write page) -> Page)
    }
}

/// The records of the payloads of a field name, by falling DATA offset, from a place on: answers as
/// `page_entries`.
#[inline]
pub fn page_values(image: &[u8], name: &[u8], place: u64, page: &mut [u8]) -> Page {
    unsafe { call!(journal_page_values(read image, read name, number place, write page) -> Page) }
}

/// Makes a new file of all of `image`, with file, machine, boot and seqnum id one after the other
/// in `ids`, keyed by 1 and not by 0, with a header of 256 or 272 bytes: 0; or 20, and no byte
/// changes.
#[inline]
pub fn new(
    image: &mut [u8],
    ids: &[u8; 64],
    data_cells: u64,
    field_cells: u64,
    keyed: u64,
    header_size: u64,
) -> u64 {
    unsafe {
        call!(journal_new(
            write image, array ids, number data_cells, number field_cells, number keyed,
            number header_size
        ) -> u64)
    }
}

/// Carries out the first `k` stores of the list on the image: 0; or 21, and no byte changes.
#[inline]
pub fn carry_out(image: &mut [u8], stores: &[u8], k: u64) -> u64 {
    unsafe { call!(journal_carry_out(write image, read stores, number k) -> u64) }
}

/// Works out the stores of an append, to the front of the list, 16 bytes each: the refusal, and 256
/// times a number of stores. The image is not written: `carry_out` does that.
#[inline]
pub fn plan(image: &[u8], request: &Request, stores: &mut [u8]) -> u64 {
    let Request {
        machine,
        boot,
        seqnum,
        realtime,
        monotonic,
        fields,
    } = *request;
    unsafe {
        call!(journal_plan(
            read image, array machine, array boot, number seqnum, number realtime, number monotonic,
            read fields, write stores
        ) -> u64)
    }
}

/// The number of sync points in the list, which `plan` or `plan_batch` wrote and which has no bytes after its stores.
/// Each is a number of stores, in eight bytes at the front of `points`, as many as there is room for;
/// after them `points` is as it was.
#[inline]
pub fn sync_points(stores: &[u8], points: &mut [u8]) -> u64 {
    unsafe { call!(journal_sync_points(read stores, write points) -> u64) }
}
