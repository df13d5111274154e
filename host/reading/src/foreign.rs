//! The foreign objects: "offset and type of each walked object of type 8 and up". They play no part
//! in any lookup.
use super::image::Object;
use super::layout::kind::FIRST_FOREIGN;
use super::lookup::{at, open, Journal};

/// What the call answers: the image's refusal, and nothing else; or the offset and the type of a
/// foreign object, all 0 for none.
#[derive(Clone, Copy, Debug, Default, PartialEq, Eq)]
pub struct Foreign {
    pub refusal: u64,
    pub offset: u64,
    pub kind: u64,
}

impl Journal<'_> {
    /// All of them, "in file order".
    pub fn foreign_objects(&self) -> Vec<Object> {
        let walked = self.image.objects.iter().copied();
        walked
            .filter(|object| object.kind >= FIRST_FOREIGN)
            .collect()
    }

    /// "Staff ask by place from 0": the one at a place, "or none".
    pub fn foreign(&self, place: u64) -> Foreign {
        let object = at(&self.foreign_objects(), place);
        object.map_or(Foreign::default(), |object| Foreign {
            refusal: 0,
            offset: object.offset,
            kind: object.kind.into(),
        })
    }
}

/// The answer of any image.
pub fn foreign(image: &[u8], place: u64) -> Foreign {
    match open(image) {
        Ok(journal) => journal.foreign(place),
        Err(refusal) => Foreign {
            refusal,
            ..Foreign::default()
        },
    }
}
