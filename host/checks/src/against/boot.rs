//! What the boot id in an image means, by the archive and by the reading.
use super::lent::Lent;
use reading::boot::{boot_meaning, BootMeaning};
use wrapper::raw;

/// The archive's answer in the reading's words.
pub fn answer(image: &[u8]) -> BootMeaning {
    let is = raw::boot_meaning(image);
    BootMeaning {
        refusal: is.refusal,
        of_tail_entry: is.of_tail_entry,
    }
}

/// Asks of the image lent amid other bytes: what both answer, or the refusal; or what differs.
pub fn compare(image: &[u8], tried: u64) -> Result<Result<u64, u64>, String> {
    let mut lent = Lent::new(image, tried);
    let (is, right) = (answer(lent.bytes()), boot_meaning(image));
    if is != right {
        return Err(format!("{is:?}, and not {right:?}"));
    }
    if lent.after() != Some(image) {
        return Err("the image or what is around it changed".to_string());
    }
    match is.refusal {
        0 => Ok(Ok(is.of_tail_entry)),
        number => Ok(Err(number)),
    }
}
