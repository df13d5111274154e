//! The late fields of headers of 264 and 272 bytes, and the tail fields of a compact file's DATA, each at
//! many values: only the right one is read.
use super::asking::Tried;
use checks::generator::ahead::ahead;
use checks::generator::render::render;
use checks::generator::rendered::Rendered;
use checks::random::Random;
use reading::image::{le32, le64};
use reading::layout::{data, header, Layout, HEADER_SIZES};
use std::collections::BTreeSet;

/// Values that another rule would give, around the right one, and far off in any byte.
fn others(made: &Rendered, right: u64) -> BTreeSet<u64> {
    let mut values = BTreeSet::from([0, 1, 2, 3, 4, 5, 6, 7, 1 << 63, u64::MAX]);
    values.extend(&made.offsets);
    values.extend([0, 1, 2, 8, 16, 24].map(|far| right.wrapping_add(far)));
    values.extend([1, 2, 8, 16, 24].map(|far| right.wrapping_sub(far)));
    values.extend((0..64).map(|bit| right ^ 1 << bit));
    values
}

/// Arrays of 2, 1 and 3 items are chained ahead, of the header and of the DATA.
#[test]
fn each_field_alone() {
    let mut tried = Tried::default();
    for (layout, header_size) in Layout::BOTH
        .into_iter()
        .flat_map(|layout| HEADER_SIZES.map(|size| (layout, size)))
    {
        for entries in 0..=6 {
            let draft = ahead(layout, header_size, entries % 2 == 0, entries);
            let made = render(&draft, &mut Random::new(1));
            assert_eq!(tried.refusal(&made.image), 0);
            let mut halves = Vec::new();
            if header_size >= 264 {
                halves.extend([
                    header::TAIL_ENTRY_ARRAY_OFFSET,
                    header::TAIL_ENTRY_ARRAY_N_ENTRIES,
                ]);
            }
            if layout == Layout::Compact {
                // The DATA is the first part.
                let of_data = [
                    data::TAIL_ENTRY_ARRAY_OFFSET,
                    data::TAIL_ENTRY_ARRAY_N_ENTRIES,
                ];
                halves.extend(of_data.map(|at| made.offsets[0] + at));
            }
            for at in halves {
                let right = le32(&made.image, at);
                let values = others(&made, right.into()).into_iter();
                for value in BTreeSet::from_iter(values.map(|it| it as u32)) {
                    let mut image = made.image.clone();
                    image[at as usize..][..4].copy_from_slice(&value.to_le_bytes());
                    let number = if value == right { 0 } else { 14 };
                    assert_eq!(tried.refusal(&image), number, "{entries}: {value} at {at}");
                }
            }
            if header_size == 272 {
                let right = le64(&made.image, header::TAIL_ENTRY_OFFSET);
                for value in others(&made, right) {
                    let mut other = made.clone();
                    other.set(header::TAIL_ENTRY_OFFSET, value);
                    let number = if value == right { 0 } else { 14 };
                    assert_eq!(tried.refusal(&other.image), number, "{entries}: {value}");
                }
            }
        }
    }
    tried.print("each late field alone");
    let [read, only_14, below] = tried.sorts();
    assert!(read > 42 && only_14 > 5_000 && below == 0);
}
