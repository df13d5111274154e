//! The lookups as questions and answers, "at every argument and place".
use super::lookup::{Journal, Part};

/// One lookup with its argument and place.
#[derive(Clone, Debug, PartialEq, Eq, PartialOrd, Ord)]
pub enum Question {
    /// The committed entry at a place.
    Entry(u64),
    /// The first committed entry with seqnum at or above.
    FirstSeqnum(u64),
    /// The first committed entry in order with realtime at or above.
    FirstRealtime(u64),
    /// The item of an entry (its offset) at a place.
    Item(u64, u64),
    /// The committed entry holding a payload at a place.
    Holding(Vec<u8>, u64),
    /// The payload of a field name at a place.
    Payload(Vec<u8>, u64),
}

/// An entry's offset, a payload shown, or none.
#[derive(Clone, Copy, Debug, PartialEq, Eq)]
pub enum Answer {
    Entry(u64),
    Shown(Part),
    None,
}

/// The answer of an image that opens.
pub fn ask(journal: &Journal, question: &Question) -> Answer {
    let entry = |offset: Option<u64>| offset.map_or(Answer::None, Answer::Entry);
    let shown = |part: Option<Part>| part.map_or(Answer::None, Answer::Shown);
    match question {
        Question::Entry(place) => entry(journal.entry(*place)),
        Question::FirstSeqnum(seqnum) => entry(journal.first_seqnum(*seqnum)),
        Question::FirstRealtime(realtime) => entry(journal.first_realtime(*realtime)),
        Question::Item(offset, place) => shown(journal.item(*offset, *place)),
        Question::Holding(payload, place) => entry(journal.entry_holding(payload, *place)),
        Question::Payload(name, place) => shown(journal.payload(name, *place)),
    }
}
