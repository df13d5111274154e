//! Two files, one stream: "Given two images that open, show their committed entries merged".
//!
//! Places are asked from 0 in each file, and nothing is remembered from step to step.
use std::cmp::Ordering;

use super::image::id;
use super::layout::{entry, header};
use super::lookup::{open, Journal, Part};

/// Two images that open.
pub struct Stream<'a> {
    pub first: Journal<'a>,
    pub second: Journal<'a>,
}

/// A refusal, and the file that it is of: 1 or 2.
#[derive(Clone, Copy, Debug, PartialEq, Eq)]
pub struct Refused {
    pub number: u64,
    pub file: u64,
}

/// The entry that is shown: its file, 1 or 2, its offset there, and the places to go on with.
#[derive(Clone, Copy, Debug, PartialEq, Eq)]
pub struct Shown {
    pub file: u64,
    pub entry: u64,
    pub next_first: u64,
    pub next_second: u64,
}

/// What two entries are compared by; they are equal where all of this is. Numbers are unsigned.
#[derive(Clone, Copy, Debug, PartialEq, Eq)]
pub struct Facts {
    pub seqnum_id: [u8; 16],
    pub seqnum: u64,
    pub boot_id: [u8; 16],
    pub monotonic: u64,
    pub realtime: u64,
    pub xor_hash: u64,
}

/// Opens both: "the first file's number, else the second's, with which file it was".
pub fn open_both<'a>(first: &'a [u8], second: &'a [u8]) -> Result<Stream<'a>, Refused> {
    let opened = |bytes, file| open(bytes).map_err(|number| Refused { number, file });
    Ok(Stream {
        first: opened(first, 1)?,
        second: opened(second, 2)?,
    })
}

/// The facts of an entry, xor_hash as it is stored.
pub fn facts(journal: &Journal, offset: u64) -> Facts {
    let word = |at: u64| journal.image.word(offset + at);
    Facts {
        seqnum_id: id(journal.image.bytes, header::SEQNUM_ID),
        seqnum: word(entry::SEQNUM),
        boot_id: id(journal.image.bytes, offset + entry::BOOT_ID),
        monotonic: word(entry::MONOTONIC),
        realtime: word(entry::REALTIME),
        xor_hash: word(entry::XOR_HASH),
    }
}

/// Which of the two next entries goes before the other; equal where it is "then the first file".
pub fn order(first: &Facts, second: &Facts) -> Ordering {
    // "same seqnum id goes by sequence number"
    if first.seqnum_id == second.seqnum_id && first.seqnum != second.seqnum {
        return first.seqnum.cmp(&second.seqnum);
    }
    // "otherwise, or if equal, same boot by monotonic time"
    if first.boot_id == second.boot_id && first.monotonic != second.monotonic {
        return first.monotonic.cmp(&second.monotonic);
    }
    // "otherwise, or if equal, by realtime, then by xor_hash"
    let by_realtime = first.realtime.cmp(&second.realtime);
    by_realtime.then(first.xor_hash.cmp(&second.xor_hash))
}

impl<'a> Stream<'a> {
    /// The file of a number.
    pub fn file(&self, number: u64) -> &Journal<'a> {
        match number {
            1 => &self.first,
            _ => &self.second,
        }
    }

    /// What is shown from these places on; none where both files are at their end. The place of a
    /// file that is not shown comes back as it was given.
    pub fn step(&self, at_first: u64, at_second: u64) -> Option<Shown> {
        let first = |entry: u64| Shown {
            file: 1,
            entry,
            next_first: at_first + 1,
            next_second: at_second,
        };
        let second = |entry: u64| Shown {
            file: 2,
            entry,
            next_first: at_first,
            next_second: at_second + 1,
        };
        match (self.first.entry(at_first), self.second.entry(at_second)) {
            (None, None) => None,
            (Some(one), None) => Some(first(one)),
            (None, Some(other)) => Some(second(other)),
            (Some(one), Some(other)) => {
                let [of_one, of_other] = [facts(&self.first, one), facts(&self.second, other)];
                Some(match order(&of_one, &of_other) {
                    // "Entries equal in [all of these] that meet as the two next ones are shown
                    // once, from the first file."
                    _ if of_one == of_other => Shown {
                        next_second: at_second + 1,
                        ..first(one)
                    },
                    Ordering::Greater => second(other),
                    Ordering::Less | Ordering::Equal => first(one),
                })
            }
        }
    }

    /// The payload of an item of the entry that is shown from these places on, by place: "a part of
    /// the first or of the second image, and the answer says which".
    pub fn item(&self, at_first: u64, at_second: u64, place: u64) -> Option<(u64, Part)> {
        let shown = self.step(at_first, at_second)?;
        let part = self.file(shown.file).item(shown.entry, place)?;
        Some((shown.file, part))
    }

    /// All that is shown from these places on, in order.
    pub fn all(&self, at_first: u64, at_second: u64) -> Vec<Shown> {
        let next = |shown: &Shown| self.step(shown.next_first, shown.next_second);
        std::iter::successors(self.step(at_first, at_second), next).collect()
    }
}
