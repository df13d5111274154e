//! Appends to files that no append made: old DATA of count 0, and the longest images.
use checks::generator::draft::Part;
use checks::generator::render::render;
use checks::generator::unheld::unheld;
use checks::generator::worked::{first, request};
use checks::random::Random;
use reading::image::arena_end;
use reading::layout::{Layout, MOST_BYTES};
use reading::request::{packed, Request};

use crate::made::{made, Tried};

#[test]
fn old_data_of_count_0() {
    let mut tried = Tried::default();
    for (layout, header_size, keyed) in [
        (Layout::Regular, 256, false),
        (Layout::Regular, 256, true),
        (Layout::Regular, 272, false),
        (Layout::Compact, 256, true),
        (Layout::Compact, 272, false),
    ] {
        for stale in [false, true] {
            let draft = unheld(layout, header_size, keyed, stale);
            let image = render(&draft, &mut Random::new(7)).image;
            for chosen in 1u32..32 {
                let all: [&[u8]; 5] = [b"LOT=1", b"LOT=2", b"LOT=3", b"LOT=", b"LOT=4"];
                let some: Vec<&[u8]> = (0..5)
                    .filter(|n| chosen >> n & 1 == 1)
                    .map(|n| all[n])
                    .collect();
                let fields = packed(&some);
                let ask = request(&fields, 2, 0, 0);
                assert_eq!(tried.append(&image, ask), 0);
                let mut after = image.clone();
                tried.carried(&mut after, ask);
                assert_eq!(tried.append(&after, request(&fields, 3, 0, 0)), 0);
            }
        }
    }
    tried.print("old DATA of count 0");
}

/// Images of the greatest length whose new objects end with them, or would pass their end.
#[test]
fn longest_images() {
    let mut tried = Tried::default();
    let fields = first();
    // The new objects have 416 bytes, and 392 in a compact file.
    for (layout, header_size, keyed, need) in [
        (Layout::Regular, 256, false, 416),
        (Layout::Regular, 272, true, 416),
        (Layout::Compact, 272, true, 392),
    ] {
        for room in [need - 8, need, need + 8, 4096] {
            // A foreign object up to where the new ones are to begin.
            let mut draft = unheld(layout, header_size, keyed, false);
            draft.parts = vec![Part::Foreign {
                kind: 9,
                size: MOST_BYTES - header_size - 2 * 48 - room,
            }];
            (draft.order, draft.committed) = (vec![0], Vec::new());
            (draft.entry_array, draft.noise) = (None, false);
            (draft.spare, draft.trailing) = (room, 0);
            let image = render(&draft, &mut Random::new(3)).image;
            assert_eq!(arena_end(&image), u128::from(MOST_BYTES));
            let number = if room < need { 18 } else { 0 };
            let ask = request(&fields, 1, 0, 0);
            assert_eq!(tried.append(&image, ask), number, "{room}");
        }
    }
    // The largest tables.
    let image = made(MOST_BYTES as usize, (65_536, 1_024), true);
    assert_eq!(tried.append(&image, request(&fields, 1, 0, 0)), 0);
    let other = Request {
        machine_id: [0; 16],
        ..request(&fields, 1, 0, 0)
    };
    assert_eq!(tried.append(&image, other), 15);
}
