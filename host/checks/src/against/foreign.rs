//! The foreign objects of an image by the archive and by the reading.
use super::lent::Lent;
use reading::foreign::Foreign;
use reading::lookup::open;
use wrapper::raw;

/// The archive's answer in the reading's words.
pub fn answer(image: &[u8], place: u64) -> Foreign {
    let is = raw::foreign(image, place);
    Foreign {
        refusal: is.refusal,
        offset: is.offset,
        kind: is.kind,
    }
}

/// Where to ask an image of so many: every place up to two past the last, and places far from all,
/// that a count of fewer bits would take for one of these.
pub fn places(count: u64) -> impl Iterator<Item = u64> {
    let near = 0..count + 2;
    let far = [8, 16, 31, 32, 48, 63].map(|bit| 1 << bit);
    let far = far.into_iter().flat_map(|far| [far - 1, far, far + 1]);
    near.chain(far).chain([u64::MAX - 1, u64::MAX])
}

/// Asks at all these places, of the image lent amid other bytes: the number of foreign objects, or
/// the refusal that both answer; or what differs.
pub fn compare(image: &[u8], tried: u64) -> Result<Result<u64, u64>, String> {
    let opened = open(image);
    let count = match &opened {
        Ok(journal) => journal.foreign_objects().len() as u64,
        Err(_) => 0,
    };
    let mut lent = Lent::new(image, tried);
    for place in places(count) {
        let is = answer(lent.bytes(), place);
        let right = match &opened {
            Ok(journal) => journal.foreign(place),
            Err(number) => Foreign {
                refusal: *number,
                ..Foreign::default()
            },
        };
        if is != right {
            return Err(format!("at place {place} {is:?}, and not {right:?}"));
        }
    }
    match lent.after() == Some(image) {
        true => Ok(opened.map(|_| count)),
        false => Err("the image or what is around it changed".to_string()),
    }
}
