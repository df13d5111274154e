//! Each word of the sample, and each half of a word of a compact one, at every object's offset, next to what
//! stood there and at the edges.
use super::asking::Tried;
use checks::against::trial::with;
use checks::generator::faulty::sample::{drawn, sample, Form};
use reading::image::{le32, le64, Image};
use reading::layout::Layout;

const FORMS: [Form; 3] = [
    (Layout::Regular, 256, true),
    (Layout::Regular, 264, false),
    (Layout::Compact, 272, true),
];

fn values(near: u64, offsets: &[u64]) -> Vec<u64> {
    let mut values = offsets.to_vec();
    for far in [1, 2, 8, 16, 32] {
        values.extend([near.wrapping_add(far), near.wrapping_sub(far)]);
    }
    values.extend([
        0,
        1,
        2,
        3,
        1 << 31,
        1 << 32,
        1 << 63,
        u64::MAX - 7,
        u64::MAX,
    ]);
    values
}

#[test]
fn every_word() {
    let mut tried = Tried::default();
    for form in FORMS {
        let image = drawn(&sample(form)).image;
        let walked = Image::walked(&image).objects;
        let offsets: Vec<u64> = walked.iter().map(|object| object.offset).collect();
        for at in (0..image.len() as u64 / 8).map(|word| 8 * word) {
            for value in values(le64(&image, at), &offsets) {
                tried.image(&with(&image, at, value));
            }
        }
        let halves = match form.0 {
            Layout::Regular => 0,
            Layout::Compact => image.len() as u64 / 4,
        };
        for at in (0..halves).map(|half| 4 * half) {
            for value in values(le32(&image, at).into(), &offsets) {
                let mut image = image.clone();
                let value = (value as u32).to_le_bytes();
                image[at as usize..][..4].copy_from_slice(&value);
                tried.image(&image);
            }
        }
    }
    tried.print("every word");
    assert!((3..12).all(|number| tried.answers[number] > 50));
}
