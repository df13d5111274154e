//! Each word of small files that are read, at the offset of each object, at its neighbours and at the
//! edges of 64 bits: what 1 to 11 and 14 say of it.
use super::asking::Tried;
use checks::against::trial::with;
use checks::generator::full::full_in;
use reading::image::{le32, le64, Image};
use reading::layout::{Layout, HEADER_SIZES};

#[test]
fn every_word() {
    let mut tried = Tried::default();
    for layout in Layout::BOTH {
        for header_size in HEADER_SIZES {
            let image = full_in(layout, header_size, &[1, 2], header_size != 264, 16);
            let objects = Image::walked(&image).objects;
            let mut values: Vec<u64> = objects.iter().map(|object| object.offset).collect();
            values.extend([0, 1, 2, 3, 1 << 32, 1 << 63, u64::MAX]);
            for at in (8..image.len() as u64 - 7).step_by(8) {
                let is = le64(&image, at);
                let near = [is.wrapping_add(1), is.wrapping_sub(1), is.wrapping_add(8)];
                for &value in near.iter().chain(&values) {
                    tried.some(&with(&image, at, value), 29);
                }
            }
        }
    }
    tried.print("every word");
    let [read, only_14, below] = tried.sorts();
    assert!(read > 500 && only_14 > 500 && below > 500);
}

/// Each half of a word of compact ones.
#[test]
fn every_half() {
    let mut tried = Tried::default();
    for header_size in HEADER_SIZES {
        let image = full_in(Layout::Compact, header_size, &[1, 2], true, 16);
        let objects = Image::walked(&image).objects;
        let mut values: Vec<u32> = objects.iter().map(|it| it.offset as u32).collect();
        values.extend([0, 1, 2, 3, 1 << 31, u32::MAX]);
        for at in (8..image.len() as u64 - 3).step_by(4) {
            let is = le32(&image, at);
            let near = [is.wrapping_add(1), is.wrapping_sub(1), is ^ 1 << 31];
            for &value in near.iter().chain(&values) {
                let mut image = image.clone();
                image[at as usize..][..4].copy_from_slice(&value.to_le_bytes());
                tried.some(&image, 29);
            }
        }
    }
    tried.print("every half");
    let [read, only_14, below] = tried.sorts();
    assert!(read > 500 && only_14 > 500 && below > 500);
}
