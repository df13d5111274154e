//! Many lookups of one kind at once: by one call of the benchmark's archive, which opens the image
//! in it, and by plain Rust.
use crate::asked::Asked;
use crate::plain::lookup;
use reading::ask::Question;
use reading::image::le64;

/// What is asked of each argument.
#[derive(Clone, Debug, PartialEq, Eq, PartialOrd, Ord)]
pub enum Many {
    Entry,
    BySeqnum,
    ByRealtime,
    ByPayload(Vec<u8>),
    /// The place of the item.
    Item(u64),
    Value(Vec<u8>),
    Stamps,
}

impl Many {
    /// A lookup as one of many, and its argument.
    pub fn of(asked: &Asked) -> (Many, u64) {
        match asked {
            Asked::Stamps(entry) => (Many::Stamps, *entry),
            Asked::Other(question) => match question {
                Question::Entry(place) => (Many::Entry, *place),
                Question::FirstSeqnum(seqnum) => (Many::BySeqnum, *seqnum),
                Question::FirstRealtime(realtime) => (Many::ByRealtime, *realtime),
                Question::Holding(payload, place) => (Many::ByPayload(payload.clone()), *place),
                Question::Item(entry, place) => (Many::Item(*place), *entry),
                Question::Payload(name, place) => (Many::Value(name.clone()), *place),
            },
        }
    }

    /// The image's refusal, or one number of each answer, added up.
    pub fn archive(&self, image: &[u8], arguments: &[u8]) -> u64 {
        let (kind, bytes, place) = match self {
            Many::Entry => (0, &[][..], 0),
            Many::BySeqnum => (1, &[][..], 0),
            Many::ByRealtime => (2, &[][..], 0),
            Many::ByPayload(payload) => (3, &payload[..], 0),
            Many::Item(place) => (4, &[][..], *place),
            Many::Value(name) => (5, &name[..], 0),
            Many::Stamps => (6, &[][..], 0),
        };
        measured::lookups(image, kind, bytes, place, arguments)
    }

    /// The same numbers added up by plain Rust, of an image that opens.
    pub fn plain(&self, image: &[u8], arguments: &[u8]) -> u64 {
        let answers = arguments
            .chunks_exact(8)
            .map(|word| self.one(image, le64(word, 0)));
        answers.fold(0, u64::wrapping_add)
    }

    #[inline(always)]
    fn one(&self, image: &[u8], argument: u64) -> u64 {
        match self {
            Many::Entry => lookup::entry(image, argument),
            Many::BySeqnum => lookup::by_seqnum(image, argument),
            Many::ByRealtime => lookup::by_realtime(image, argument),
            Many::ByPayload(payload) => lookup::by_payload(image, payload, argument),
            Many::Item(place) => lookup::item(image, argument, *place).len,
            Many::Value(name) => lookup::value(image, name, argument).len,
            Many::Stamps => lookup::stamps(image, argument).seqnum,
        }
    }
}

/// Numbers as arguments.
pub fn words(numbers: &[u64]) -> Vec<u8> {
    numbers.iter().flat_map(|it| it.to_le_bytes()).collect()
}
