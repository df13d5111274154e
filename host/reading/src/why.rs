//! Why an image is refused: "the number and the offset of the first object at fault".
use super::image::Image;
use super::refusal::{faults, wrong_hashes};

/// What the call answers: all 0 "for a file that opens". Else the number and the lowest place at which a
/// clause of it applies; `hash_wrong` is 1 if at 11 a hash is wrong in that object, with "the stored and
/// the right value", and otherwise all three are 0.
#[derive(Clone, Copy, Debug, Default, PartialEq, Eq)]
pub struct Why {
    pub refusal: u64,
    pub place: u64,
    pub hash_wrong: u64,
    pub stored: u64,
    pub right: u64,
}

/// "the fault stands at that place and at no earlier one, and no lower number applies"
pub fn why(bytes: &[u8]) -> Why {
    let faults = faults(bytes);
    let Some(first) = faults.iter().min_by_key(|fault| fault.place) else {
        return Why::default();
    };
    let why = Why {
        refusal: first.clause.number,
        place: first.place,
        ..Why::default()
    };
    match why.refusal {
        11 => with_hash(bytes, why),
        _ => why,
    }
}

/// "At 11 it adds, for the first wrong hash there by offset, the stored and the right value."
fn with_hash(bytes: &[u8], why: Why) -> Why {
    let image = Image::walked(bytes);
    let object = image.object_at(why.place).expect("an object is at fault");
    match wrong_hashes(&image, &object).first() {
        Some(hash) => Why {
            hash_wrong: 1,
            stored: hash.stored,
            right: hash.right,
            ..why
        },
        None => why,
    }
}
