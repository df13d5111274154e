//! Damaged files, and why each is refused: worked out by hand from where the damage was done.
mod cells;
mod drawn;
mod hashes;
mod header;
mod links;
mod lists;
mod positions;
pub mod sample;
mod walk;

use super::rendered::Rendered;
use reading::why::Why;
use sample::Form;

/// A damaged file, and what is to be said of it.
pub struct Case {
    pub what: String,
    pub image: Vec<u8>,
    pub why: Why,
}

impl Case {
    /// Refused by a number at a place, with no wrong hash there.
    fn new(what: impl Into<String>, image: &[u8], refusal: u64, place: u64) -> Case {
        Case {
            what: what.into(),
            image: image.to_vec(),
            why: Why {
                refusal,
                place,
                ..Why::default()
            },
        }
    }
}

/// The image with a change.
fn changed(made: &Rendered, change: impl FnOnce(&mut Rendered)) -> Vec<u8> {
    let mut made = made.clone();
    change(&mut made);
    made.image
}

/// All of them in one form.
pub fn cases(form: Form) -> Vec<Case> {
    [
        header::cases(form),
        walk::cases(form),
        links::cases(form),
        positions::cases(form),
        lists::cases(form),
        hashes::cases(form),
        drawn::cases(form),
        cells::cases(form),
    ]
    .into_iter()
    .flatten()
    .collect()
}
