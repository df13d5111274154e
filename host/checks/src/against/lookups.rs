//! A lookup put to the archive, and what the reading answers.
use reading::ask::{ask, Answer, Question};
use reading::layout::entry;
use reading::lookup::Journal;
use wrapper::raw;

/// An answer in the archive's words.
#[derive(Clone, Copy, Debug, PartialEq, Eq)]
pub enum Words {
    Number(u64),
    Part(raw::Part),
}

impl Words {
    /// Whether nothing was found; so it is of a part that is refused, too.
    pub fn is_none(&self) -> bool {
        [Words::Number(0), Words::Part(raw::Part::default())].contains(self)
    }
}

/// The archive's answer.
pub fn archive(image: &[u8], question: &Question) -> Words {
    match question {
        Question::Entry(place) => Words::Number(raw::entry(image, *place)),
        Question::FirstSeqnum(seqnum) => Words::Number(raw::by_seqnum(image, *seqnum)),
        Question::FirstRealtime(realtime) => Words::Number(raw::by_realtime(image, *realtime)),
        Question::Item(offset, place) => Words::Part(raw::item(image, *offset, *place)),
        Question::Holding(payload, place) => Words::Number(raw::by_payload(image, payload, *place)),
        Question::Payload(name, place) => Words::Part(raw::value(image, name, *place)),
    }
}

/// Whether a question is answered by a part of the image.
fn shows(question: &Question) -> bool {
    matches!(question, Question::Item(..) | Question::Payload(..))
}

/// Which lookup a question is: entry, seqnum, realtime, payload, item or value.
pub fn lookup(question: &Question) -> usize {
    match question {
        Question::Entry(_) => 0,
        Question::FirstSeqnum(_) => 1,
        Question::FirstRealtime(_) => 2,
        Question::Holding(..) => 3,
        Question::Item(..) => 4,
        Question::Payload(..) => 5,
    }
}

/// The reading's answer, of an image that opens.
pub fn read(journal: &Journal, question: &Question) -> Words {
    words(question, ask(journal, question))
}

/// An answer of the reading in the archive's words.
pub fn words(question: &Question, answer: Answer) -> Words {
    match answer {
        Answer::Entry(offset) => Words::Number(offset),
        Answer::Shown(part) => Words::Part(raw::Part {
            at: part.place,
            len: part.length,
        }),
        Answer::None => refused(question, 0),
    }
}

/// What is said of an image that is refused; and with 0, where there is nothing to answer.
pub fn refused(question: &Question, number: u64) -> Words {
    match shows(question) {
        true => Words::Part(raw::Part::default()),
        false => Words::Number(number),
    }
}

/// The stamps of a committed entry, and all 0 at any other offset, of an image that opens.
pub fn read_stamps(journal: &Journal, offset: u64) -> raw::Stamps {
    if !journal.committed.contains(&offset) {
        return raw::Stamps::default();
    }
    let word = |at: u64| journal.image.word(offset + at);
    let object = journal.image.object_at(offset).expect("it is committed");
    raw::Stamps {
        refusal: 0,
        seqnum: word(entry::SEQNUM),
        realtime: word(entry::REALTIME),
        monotonic: word(entry::MONOTONIC),
        boot_low: word(entry::BOOT_ID),
        boot_high: word(entry::BOOT_ID + 8),
        items: journal.image.entry_items(&object).len() as u64,
    }
}
