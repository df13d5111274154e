//! Why an image is refused: the number, and where the first fault stands.
use crate::lookups::Offset;
use crate::raw;
use crate::refusal::Refusal;

/// Where the first fault stands.
#[derive(Clone, Copy, Debug, PartialEq, Eq)]
pub enum Place {
    /// In the header: refusals 1 to 5 and 7, an `entry_array_offset` at 8, and 6 where no object was
    /// walked.
    Header,
    /// In the object at this offset; where the walk of 6 misses the tail object, the last one walked.
    Object(Offset),
    /// At this committed position, counted from 0: refusal 9.
    Position(u64),
}

/// A hash that is wrong: what is stored, and what it ought to be.
#[derive(Clone, Copy, Debug, PartialEq, Eq)]
pub struct WrongHash {
    pub stored: u64,
    pub right: u64,
}

/// Why an image is refused.
#[derive(Clone, Copy, Debug, PartialEq, Eq)]
pub struct Why {
    pub refusal: Refusal,
    /// The fault of this number stands there, and at no earlier place.
    pub place: Place,
    /// At 11, the first wrong hash by offset in the object at that place, if there is one.
    pub hash: Option<WrongHash>,
}

/// Why the image is refused; none where it opens.
///
/// ```
/// use wrapper::{new, why, Place};
///
/// let mut image = vec![0; 4_096];
/// new(&mut image, &[7; 64], 1, 1, true, 256)?;
/// assert_eq!(why(&image), None);
///
/// // The first object, a hash table of 32 bytes at 256, gets flags that no table has.
/// image[257] = 1;
/// let why = why(&image).expect("it is damaged");
/// assert_eq!(why.refusal.number(), 6);
/// assert_eq!(why.place, Place::Object(wrapper::Offset(256)));
/// # Ok::<(), Box<dyn std::error::Error>>(())
/// ```
pub fn why(image: &[u8]) -> Option<Why> {
    let answer = raw::why(image);
    let refusal = Refusal::new(answer.refusal)?;
    let place = match answer.place {
        index if answer.refusal == 9 => Place::Position(index),
        0 => Place::Header,
        offset => Place::Object(Offset(offset)),
    };
    let hash = (answer.hash_wrong == 1).then_some(WrongHash {
        stored: answer.stored,
        right: answer.right,
    });
    Some(Why {
        refusal,
        place,
        hash,
    })
}
