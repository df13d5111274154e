//! A second reader that "uses no hash table, field list or array: it walks the ENTRY objects and compares
//! payloads byte by byte". It shares numbers and objects with the first one, and no lookup.
use std::collections::BTreeSet;

use super::ask::{Answer, Question};
use super::fit::fourteen;
use super::image::{first_object, layout, le32, le64, Image, Object};
use super::layout::{entry, header, kind, Layout};
use super::lookup::Part;
use super::refusal::{self, Clause};

/// "Refusals: 1 to 11, then 14": all clauses that apply at the first number that does; none if the image
/// is read. 12, 13 and 25 are of an append.
pub fn clauses(bytes: &[u8]) -> Vec<Clause> {
    let mut found = refusal::clauses(bytes);
    if found.is_empty() {
        fourteen(&Image::walked(bytes), &mut found);
        found.sort();
        found.dedup();
    }
    found
}

/// The number, 0 if the image is read.
pub fn refusal(bytes: &[u8]) -> u64 {
    clauses(bytes).first().map_or(0, |clause| clause.number)
}

/// An image that is read, and the ENTRY objects that the walk meets. All of them are committed: 14 has
/// passed, and "n_entries counts every ENTRY".
pub struct Plain<'a> {
    bytes: &'a [u8],
    layout: Layout,
    entries: Vec<Object>,
}

/// Reads an image; its refusal otherwise.
pub fn open(bytes: &[u8]) -> Result<Plain<'_>, u64> {
    match refusal(bytes) {
        0 => Ok(Plain {
            bytes,
            layout: layout(bytes),
            entries: entries(bytes),
        }),
        number => Err(number),
    }
}

/// The ENTRY objects from the header's end up to the tail object.
fn entries(bytes: &[u8]) -> Vec<Object> {
    let tail = le64(bytes, header::TAIL_OBJECT_OFFSET);
    let mut entries = Vec::new();
    let mut at = first_object(bytes);
    while at <= tail {
        let object = Object::read(bytes, at);
        if object.kind == kind::ENTRY {
            entries.push(object);
        }
        at = object.next() as u64;
    }
    entries
}

impl Plain<'_> {
    /// The answer to a question.
    pub fn ask(&self, question: &Question) -> Answer {
        match question {
            Question::Entry(place) => self.pick(*place, |_| true),
            Question::FirstSeqnum(seqnum) => {
                self.pick(0, |it| self.stamp(it, entry::SEQNUM) >= *seqnum)
            }
            Question::FirstRealtime(realtime) => {
                self.pick(0, |it| self.stamp(it, entry::REALTIME) >= *realtime)
            }
            Question::Holding(payload, place) => self.pick(*place, |it| self.holds(it, payload)),
            Question::Item(offset, place) => {
                let mut entries = self.entries.iter();
                let data = match entries.find(|it| it.offset == *offset) {
                    Some(entry) => self.data(entry),
                    None => Vec::new(),
                };
                self.show(&data, *place)
            }
            Question::Payload(name, place) => {
                // "by falling DATA offset", each once
                let all = self.entries.iter().flat_map(|it| self.data(it));
                let of_it: BTreeSet<u64> = all.filter(|&it| self.is_named(it, name)).collect();
                let falling: Vec<u64> = of_it.into_iter().rev().collect();
                self.show(&falling, *place)
            }
        }
    }

    /// Of the ENTRYs that pass a test the one at a place.
    fn pick(&self, place: u64, test: impl Fn(&Object) -> bool) -> Answer {
        let mut left = place;
        for object in &self.entries {
            if test(object) {
                if left == 0 {
                    return Answer::Entry(object.offset);
                }
                left -= 1;
            }
        }
        Answer::None
    }

    fn stamp(&self, object: &Object, at: u64) -> u64 {
        le64(self.bytes, object.offset + at)
    }

    /// The DATA that an ENTRY has as its items: 64 + 16n bytes with a 64-bit offset in each item, or in a
    /// compact file 64 + 4n with one of 32 bits.
    fn data(&self, object: &Object) -> Vec<u64> {
        let end = object.offset + object.size;
        let places = |step: usize| (object.offset + entry::ITEMS..end).step_by(step);
        match self.layout {
            Layout::Regular => places(16).map(|at| le64(self.bytes, at)).collect(),
            Layout::Compact => places(4).map(|at| le32(self.bytes, at).into()).collect(),
        }
    }

    /// Where the payload of a DATA lies.
    fn part(&self, data: u64) -> Part {
        let start = self.layout.payload();
        Part {
            place: data + start,
            length: Object::read(self.bytes, data).size - start,
        }
    }

    fn holds(&self, object: &Object, payload: &[u8]) -> bool {
        let data = self.data(object).into_iter();
        data.map(|it| self.part(it))
            .any(|part| part.of(self.bytes) == payload)
    }

    /// Whether a name and then `=` stand at the front of a DATA's payload; a name has no `=` in it.
    fn is_named(&self, data: u64, name: &[u8]) -> bool {
        let rest = self.part(data).of(self.bytes).strip_prefix(name);
        rest.is_some_and(|rest| rest.first() == Some(&b'=')) && !name.contains(&b'=')
    }

    fn show(&self, data: &[u64], place: u64) -> Answer {
        match usize::try_from(place).ok().and_then(|at| data.get(at)) {
            Some(&data) => Answer::Shown(self.part(data)),
            None => Answer::None,
        }
    }
}
