//! Compact files, by examples worked out by hand: what 4, 6 and 14 say.
use crate::compact::made_compact;
use crate::examples::objects;
use checks::generator::frame::{frame_in, set};
use checks::generator::full::full_in;
use reading::fit::fourteen;
use reading::image::{le64, Image};
use reading::layout::{kind, Layout};
use reading::refusal::clause::*;
use reading::refusal::{clauses, refusal};
use reading::tail::{data_tail, TailArray};

#[test]
fn four_and_six() {
    let mut image = made_compact(256, 0);
    for (flags, number) in [(0, 0), (4, 0), (16, 0), (20, 0), (8, 4), (24, 4), (48, 4)] {
        image[12] = flags;
        assert_eq!(refusal(&image), number, "{flags}");
    }
    for (kind, size, found) in [
        (kind::DATA, 72, vec![DATA_BELOW]),
        (kind::ENTRY, 64, vec![ENTRY_BELOW]),
        (kind::ENTRY, 67, vec![ENTRY_BELOW, ENTRY_NOT_ITEMS]),
        (kind::ENTRY, 70, vec![ENTRY_NOT_ITEMS]),
        (kind::ENTRY_ARRAY, 24, vec![ARRAY_BELOW]),
        (kind::ENTRY_ARRAY, 27, vec![ARRAY_BELOW, ARRAY_NOT_ITEMS]),
        (kind::ENTRY_ARRAY, 30, vec![ARRAY_NOT_ITEMS]),
        (kind::ENTRY_ARRAY, 28, vec![]),
    ] {
        let image = frame_in(Layout::Compact, 256, &[(kind, size)]);
        assert_eq!(clauses(&image), found, "{kind} {size}");
    }
    // These pass 6: the DATA's hash is wrong, and the ENTRY's item is 0.
    for (kind, size, number) in [(kind::DATA, 73, 11), (kind::ENTRY, 68, 8)] {
        let image = frame_in(Layout::Compact, 256, &[(kind, size)]);
        assert_eq!(refusal(&image), number);
    }
}

/// Six entries: the header's arrays have 2 and 4 items, the DATA's 2 and 3.
#[test]
fn the_tail_fields_of_a_data() {
    let image = full_in(Layout::Compact, 272, &[2, 4], false, 504);
    let found = |image: &[u8]| {
        let mut found = Vec::new();
        fourteen(&Image::walked(image), &mut found);
        found
    };
    let expected = [
        (384, 1),
        (464, 2),
        (512, 6),
        (544, 6),
        (584, 6),
        (616, 6),
        (656, 3),
        (728, 3),
        (800, 3),
        (872, 3),
        (944, 3),
        (1016, 3),
    ];
    assert_eq!(objects(&image)[2..], expected);
    let tail = TailArray {
        offset: 616,
        n_entries: 3,
    };
    assert_eq!(data_tail(&Image::walked(&image), 384), tail);
    assert_eq!(le64(&image, 448), 616 + (3 << 32));
    assert_eq!(found(&image), []);
    let with = |value: u64| {
        let mut image = image.clone();
        set(&mut image, 448, value);
        assert_eq!(refusal(&image), 0);
        found(&image)
    };
    for array in [0, 512, 544, 584, 624] {
        assert_eq!(with(array + (3 << 32)), [DATA_TAIL_ARRAY]);
    }
    for count in [0, 2, 4, 5, 6, 1 << 31] {
        assert_eq!(with(616 + (count << 32)), [DATA_TAIL_COUNT]);
    }
    assert_eq!(with(0), [DATA_TAIL_ARRAY, DATA_TAIL_COUNT]);
    assert_eq!(with(3 + (616 << 32)), [DATA_TAIL_ARRAY, DATA_TAIL_COUNT]);
}
