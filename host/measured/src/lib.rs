//! A safe wrapper over `libbenchmark.a`, the proved archive with what no host calls and only tests
//! and measurements have a use for: each of its calls as a function of the same name without the
//! prefix `benchmark_`. A function only passes its arguments on, so that what is tested and
//! measured through it is the archive itself. None asks anything of its image.
//!
//! SAFETY of each call: as `call` has it. `read` arguments are only read.
#![allow(unsafe_code)]

use wrapper::call;

/// The lowest of refusals 1 to 7 that applies to the image, or 0.
#[inline]
pub fn framed(image: &[u8]) -> u64 {
    unsafe { call!(benchmark_framed(read image) -> u64) }
}

/// Refusals 1 to 7 and then the object map. The refusal, or 8 and the map's number for the object
/// at `at`.
#[inline]
pub fn map(image: &[u8], at: u64) -> u64 {
    unsafe { call!(benchmark_map(read image, number at) -> u64) }
}

/// Opens the image once, and asks one question for each word of eight bytes in `arguments`. The
/// image's refusal, or the sum of the answers' numbers modulo 2^64. An argument is by `kind`
///
/// - 0: a place among the committed entries; the answer is an offset, or 0 for none;
/// - 1: a sequence number, for the first entry with one at or above it, answered as for 0;
/// - 2: the same with a wall time;
/// - 3: a place among the entries that hold the payload `bytes`, answered as for 0;
/// - 4: the offset of an entry whose item at `place` is asked for; the length of its payload, or 0;
/// - 5: a place among the values of the field name `bytes`; the length of the payload, or 0;
/// - 6 and above: the offset of an entry; its sequence number, or 0.
#[inline]
pub fn lookups(image: &[u8], kind: u64, bytes: &[u8], place: u64, arguments: &[u8]) -> u64 {
    unsafe {
        call!(benchmark_lookups(
            read image, number kind, read bytes, number place, read arguments
        ) -> u64)
    }
}
