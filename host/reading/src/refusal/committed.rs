//! Refusal 9.
use super::clause::*;
use super::fault::Fault;
use crate::committed::committed;
use crate::image::{id, Image};
use crate::layout::{entry, header, kind};

/// 9: "n_entries above the chain's items; a committed item that is no ENTRY; offsets or
/// seqnums not strictly rising; seqnum 0; monotonic falling between neighbours of equal boot
/// id". "Realtime may now fall": a clock may be set, so it is compared with nothing.
///
/// The place is the committed position, counted from 0: the first without an item; and of "two
/// neighbours, the later".
pub fn nine(image: &Image, found: &mut Vec<Fault>) {
    let committed = committed(image);
    let items = committed.len() as u64;
    if image.word(header::N_ENTRIES) > items {
        found.push(COUNT_ABOVE_CHAIN.at(items));
    }
    for (index, &offset) in (0..).zip(&committed) {
        if !image.lands(offset, kind::ENTRY) {
            let clause = match offset {
                0 => COMMITTED_ZERO,
                _ => COMMITTED_KIND,
            };
            found.push(clause.at(index));
        } else if image.word(offset + entry::SEQNUM) == 0 {
            found.push(SEQNUM_ZERO.at(index));
        }
    }
    for (later, pair) in (1..).zip(committed.windows(2)) {
        neighbours(image, pair[0], pair[1], later, found);
    }
}

/// The committed offsets at two positions one after the other, and the index of the later.
fn neighbours(image: &Image, one: u64, next: u64, later: u64, found: &mut Vec<Fault>) {
    if next == one {
        found.push(OFFSETS_EQUAL.at(later));
    }
    if next < one {
        found.push(OFFSETS_FALLING.at(later));
    }
    if !image.lands(one, kind::ENTRY) || !image.lands(next, kind::ENTRY) {
        return;
    }
    let pair = |at: u64| (image.word(one + at), image.word(next + at));
    let (seqnum, next_seqnum) = pair(entry::SEQNUM);
    if next_seqnum == seqnum {
        found.push(SEQNUMS_EQUAL.at(later));
    }
    if next_seqnum < seqnum {
        found.push(SEQNUMS_FALLING.at(later));
    }
    let (monotonic, next_monotonic) = pair(entry::MONOTONIC);
    let same_boot = id(image.bytes, one + entry::BOOT_ID) == id(image.bytes, next + entry::BOOT_ID);
    if same_boot && next_monotonic < monotonic {
        found.push(MONOTONIC_FALLING.at(later));
    }
}
