//! What the calls on two images answer, in numbers: of a step, of a payload, and of a page.
//!
//! A record of a page is the file's number, 1 or 2, and then the record that a page of this file
//! alone would have; places are offsets in its image.
use super::merged::{open_both, Refused, Stream};
use super::pages::entry_record;

/// A step: a refusal and whose it is; or an entry and the places to go on with, all 0 for none.
#[derive(Clone, Copy, Debug, Default, PartialEq, Eq)]
pub struct Merged {
    pub refusal: u64,
    pub file: u64,
    pub entry: u64,
    pub next_first: u64,
    pub next_second: u64,
}

/// A payload: where it lies in the image of a file. All 0 where there is none, or a file is
/// refused.
#[derive(Clone, Copy, Debug, Default, PartialEq, Eq)]
pub struct MergedPart {
    pub file: u64,
    pub at: u64,
    pub len: u64,
}

/// A page: a refusal and whose it is; or the number of records in it, the length in bytes of the
/// first that found no room, 0 if none is left, and the places to go on with.
#[derive(Clone, Copy, Debug, Default, PartialEq, Eq)]
pub struct MergedPage {
    pub refusal: u64,
    pub file: u64,
    pub count: u64,
    pub next: u64,
    pub next_first: u64,
    pub next_second: u64,
}

/// Two images, or the refusal of one.
pub struct Opened<'a>(pub Result<Stream<'a>, Refused>);

impl<'a> Opened<'a> {
    pub fn new(first: &'a [u8], second: &'a [u8]) -> Opened<'a> {
        Opened(open_both(first, second))
    }

    pub fn merged(&self, at_first: u64, at_second: u64) -> Merged {
        match &self.0 {
            Err(refused) => Merged {
                refusal: refused.number,
                file: refused.file,
                ..Merged::default()
            },
            Ok(stream) => match stream.step(at_first, at_second) {
                None => Merged::default(),
                Some(shown) => Merged {
                    refusal: 0,
                    file: shown.file,
                    entry: shown.entry,
                    next_first: shown.next_first,
                    next_second: shown.next_second,
                },
            },
        }
    }

    pub fn item(&self, at_first: u64, at_second: u64, place: u64) -> MergedPart {
        let stream = self.0.as_ref().ok();
        let shown = stream.and_then(|stream| stream.item(at_first, at_second, place));
        shown.map_or(MergedPart::default(), |(file, part)| MergedPart {
            file,
            at: part.place,
            len: part.length,
        })
    }

    /// Writes the records of what is shown from these places on to the front of the page, as many
    /// whole ones as fit one after another. The bytes after them stay, all of them where a file is
    /// refused.
    pub fn page(&self, at_first: u64, at_second: u64, page: &mut [u8]) -> MergedPage {
        let stream = match &self.0 {
            Err(refused) => {
                return MergedPage {
                    refusal: refused.number,
                    file: refused.file,
                    ..MergedPage::default()
                }
            }
            Ok(stream) => stream,
        };
        let mut answer = MergedPage {
            next_first: at_first,
            next_second: at_second,
            ..MergedPage::default()
        };
        let mut end = 0;
        while let Some(shown) = stream.step(answer.next_first, answer.next_second) {
            let record = record(stream, shown.file, shown.entry);
            if page.len() - end < record.len() {
                answer.next = record.len() as u64;
                break;
            }
            page[end..end + record.len()].copy_from_slice(&record);
            end += record.len();
            answer.count += 1;
            (answer.next_first, answer.next_second) = (shown.next_first, shown.next_second);
        }
        answer
    }
}

/// The record of an entry of a file.
pub fn record(stream: &Stream, file: u64, entry: u64) -> Vec<u8> {
    let mut record = file.to_le_bytes().to_vec();
    record.extend(entry_record(stream.file(file), entry));
    record
}
