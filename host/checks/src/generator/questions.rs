//! What to ask of an image that opens: every argument at which an answer may change, and every
//! place up to one after the last.
use std::collections::BTreeSet;

use reading::ask::Question;
use reading::image::name_of;
use reading::layout::{entry, kind};
use reading::lookup::Journal;

/// Arguments of all lookups.
#[derive(Clone, Debug, Default)]
pub struct Arguments {
    pub seqnums: BTreeSet<u64>,
    pub realtimes: BTreeSet<u64>,
    pub offsets: BTreeSet<u64>,
    pub payloads: BTreeSet<Vec<u8>>,
    pub names: BTreeSet<Vec<u8>>,
}

impl Arguments {
    /// Adds those of an image: numbers at the edges, the offsets of all objects and some
    /// beside them, all payloads and names, and some that are not there.
    pub fn add(&mut self, journal: &Journal) {
        for edge in [0, 1, 1 << 63, (1 << 63) - 1, u64::MAX] {
            self.seqnums.insert(edge);
            self.realtimes.insert(edge);
            self.offsets.insert(edge);
        }
        for object in &journal.image.objects {
            self.offsets.insert(object.offset);
            match object.kind {
                kind::ENTRY => {
                    let near = |at: u64| {
                        let value = journal.image.word(object.offset + at);
                        [value.wrapping_sub(1), value, value.wrapping_add(1)]
                    };
                    self.seqnums.extend(near(entry::SEQNUM));
                    self.realtimes.extend(near(entry::REALTIME));
                    self.offsets.insert(object.offset + 8);
                    self.offsets.insert(object.offset - 8);
                }
                kind::DATA => {
                    let payload = journal.image.payload(object).to_vec();
                    if let Some(name) = name_of(&payload) {
                        self.names.insert(name.to_vec());
                    }
                    self.payloads.insert([&payload[..], b"x"].concat());
                    self.payloads.insert(payload);
                }
                kind::FIELD => {
                    let name = journal.image.payload(object).to_vec();
                    self.names.insert([&name[..], b"="].concat());
                    self.names.insert(name);
                }
                _ => {}
            }
        }
        for other in [&b""[..], b"=", b"MESSAGE", b"MESSAGE="] {
            self.payloads.insert(other.to_vec());
            self.names.insert(other.to_vec());
        }
    }

    /// The questions at every place, for an image that opens.
    pub fn questions(&self, journal: &Journal) -> Vec<Question> {
        let mut all = Vec::new();
        let places = |n: usize| (0..n as u64 + 2).chain([1 << 63, u64::MAX]);
        all.extend(places(journal.committed.len()).map(Question::Entry));
        all.extend(
            self.seqnums
                .iter()
                .map(|&seqnum| Question::FirstSeqnum(seqnum)),
        );
        all.extend(
            self.realtimes
                .iter()
                .map(|&realtime| Question::FirstRealtime(realtime)),
        );
        for &offset in &self.offsets {
            let n = match journal.image.object_at(offset) {
                Some(object) if object.kind == kind::ENTRY => {
                    journal.image.entry_items(&object).len()
                }
                _ => 0,
            };
            all.extend(places(n).map(|place| Question::Item(offset, place)));
        }
        for payload in &self.payloads {
            let n = journal.entries_holding(payload).len();
            all.extend(places(n).map(|place| Question::Holding(payload.clone(), place)));
        }
        for name in &self.names {
            let n = journal.payloads(name).len();
            all.extend(places(n).map(|place| Question::Payload(name.clone(), place)));
        }
        all
    }
}

/// All questions to one image that opens.
pub fn questions(journal: &Journal) -> Vec<Question> {
    let mut arguments = Arguments::default();
    arguments.add(journal);
    arguments.questions(journal)
}

/// One question of each kind, for images that do not open.
pub fn one_of_each() -> Vec<Question> {
    vec![
        Question::Entry(0),
        Question::FirstSeqnum(0),
        Question::FirstRealtime(0),
        Question::Holding(b"MESSAGE=".to_vec(), 0),
        Question::Item(256, 0),
        Question::Item(272, 0),
        Question::Payload(b"MESSAGE".to_vec(), 0),
    ]
}
