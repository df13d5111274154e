//! Two files, one stream: the committed entries of two images, merged.
//!
//! Of the two next entries, those of one seqnum id go by sequence number; otherwise, or if that is
//! equal, those of one boot by monotonic time; otherwise, or if that is equal, by wall time, then by
//! xor_hash, then the first file's. Entries that are equal in all of this and meet are shown once,
//! from the first file. A stream stands at a place among the committed entries of each file, and
//! begins at 0 and 0.
use crate::lookups::Offset;
use crate::pages::{Entry, RECORDS};
use crate::raw;
use crate::records::Records;
use crate::refusal::Refusal;
use std::fmt::{Display, Formatter};

/// One of the two files of a stream.
#[derive(Clone, Copy, Debug, PartialEq, Eq, PartialOrd, Ord, Hash)]
pub enum Which {
    First,
    Second,
}

/// Why there is no stream: the first file's refusal, else the second's.
#[derive(Clone, Copy, Debug, PartialEq, Eq)]
pub struct Refused {
    pub file: Which,
    pub refusal: Refusal,
}

/// A step of a stream: the entry that is shown, and the places to go on with.
#[derive(Clone, Copy, Debug, PartialEq, Eq)]
pub struct Merged {
    pub file: Which,
    pub entry: Offset,
    pub next_first: u64,
    pub next_second: u64,
}

/// What is in a page: the number of records at its front, the length in bytes of the first one that
/// found no room, 0 if none is left, and the places to go on with. Its other bytes are as they were.
#[derive(Clone, Copy, Debug, PartialEq, Eq)]
pub struct MergedPage {
    pub count: u64,
    pub next: u64,
    pub next_first: u64,
    pub next_second: u64,
}

/// The entry that is shown from these places on; none where both files are at their end.
pub fn merged(
    first: &[u8],
    second: &[u8],
    at_first: u64,
    at_second: u64,
) -> Result<Option<Merged>, Refused> {
    let answer = raw::merged(first, second, at_first, at_second);
    check(answer.refusal, answer.file)?;
    Ok(Which::new(answer.file).map(|file| Merged {
        file,
        entry: Offset(answer.entry),
        next_first: answer.next_first,
        next_second: answer.next_second,
    }))
}

/// The payload of an item of that entry, by place from 0, as a part of the image of its file. None
/// also where a file is refused.
pub fn merged_item<'a>(
    first: &'a [u8],
    second: &'a [u8],
    at_first: u64,
    at_second: u64,
    place: u64,
) -> Option<(Which, &'a [u8])> {
    let part = raw::merged_item(first, second, at_first, at_second, place);
    let file = Which::new(part.file)?;
    let (at, len) = (part.at as usize, part.len as usize);
    Some((file, &file.of(first, second)[at..at + len]))
}

/// The records of the stream from these places on, as many as the page has room for. A record is
/// the file's number, 1 or 2, in a word of eight bytes, and then the record that `page_entries` has
/// of this entry.
pub fn page_merged(
    first: &[u8],
    second: &[u8],
    at_first: u64,
    at_second: u64,
    page: &mut [u8],
) -> Result<MergedPage, Refused> {
    let answer = raw::page_merged(first, second, at_first, at_second, page);
    check(answer.refusal, answer.file)?;
    Ok(MergedPage {
        count: answer.count,
        next: answer.next,
        next_first: answer.next_first,
        next_second: answer.next_second,
    })
}

/// The whole stream: each entry with its file. One call shows it, on a page that holds all there are.
pub fn all_merged<'a>(
    first: &'a [u8],
    second: &'a [u8],
) -> Result<Vec<(Which, Entry<'a>)>, Refused> {
    let mut page = vec![0; RECORDS * (first.len() + second.len())];
    let MergedPage { count, .. } = page_merged(first, second, 0, 0, &mut page)?;
    let mut records = Records::new(page);
    let entries = (0..count).map(|_| records.turn_of(first, second));
    Ok(entries.collect())
}

impl Which {
    /// The file of a number; 0 is none.
    pub(crate) fn new(number: u64) -> Option<Which> {
        match number {
            0 => None,
            1 => Some(Which::First),
            _ => Some(Which::Second),
        }
    }

    /// 1 or 2.
    pub fn number(self) -> u64 {
        match self {
            Which::First => 1,
            Which::Second => 2,
        }
    }

    /// That one of two.
    pub fn of<T>(self, first: T, second: T) -> T {
        match self {
            Which::First => first,
            Which::Second => second,
        }
    }
}

fn check(refusal: u64, file: u64) -> Result<(), Refused> {
    Refusal::check(refusal).map_err(|refusal| Refused {
        file: Which::new(file).expect("a refusal is of a file"),
        refusal,
    })
}

impl Display for Refused {
    fn fmt(&self, to: &mut Formatter) -> std::fmt::Result {
        write!(to, "file {}: {}", self.file.number(), self.refusal)
    }
}

impl std::error::Error for Refused {}
