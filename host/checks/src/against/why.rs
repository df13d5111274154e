//! Why an image is refused, by the archive and by the reading.
use super::lent::Lent;
use reading::why::{why, Why};
use wrapper::raw;

/// The archive's answer in the reading's words.
pub fn answer(image: &[u8]) -> Why {
    let is = raw::why(image);
    Why {
        refusal: is.refusal,
        place: is.place,
        hash_wrong: is.hash_wrong,
        stored: is.stored,
        right: is.right,
    }
}

/// Asks of the image lent amid other bytes: what both answer; or what differs.
pub fn compare(image: &[u8], tried: u64) -> Result<Why, String> {
    let mut lent = Lent::new(image, tried);
    let (is, right) = (answer(lent.bytes()), why(image));
    if is != right {
        return Err(format!("{is:?}, and not {right:?}"));
    }
    match lent.after() == Some(image) {
        true => Ok(is),
        false => Err("the image or what is around it changed".to_string()),
    }
}
