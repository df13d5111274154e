//! What is wrong at one place.
use super::clause::Clause;

/// The place of what stands in the header: "for 1 to 5 and 7 the place is 0, the header".
pub const HEADER: u64 = 0;

/// A clause that applies, and where: the offset of "the object at fault"; "for 9 the object is the first
/// committed position at fault, given as its index".
#[derive(Clone, Copy, Debug, PartialEq, Eq)]
pub struct Fault {
    pub place: u64,
    pub clause: Clause,
}

impl Clause {
    pub fn at(self, place: u64) -> Fault {
        Fault {
            place,
            clause: self,
        }
    }
}
