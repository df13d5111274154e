//! Compact files: 4 by every bit, the sizes that 6 takes, and what tells a compact file from a regular one.
use super::example::{drawn, example};
use super::frames::tried as framed;
use super::open::tried;
use checks::generator::frame::frame_in;
use checks::generator::full::full_in;
use reading::layout::{data, header, kind, Layout, HEADER_SIZES};
use wrapper::raw;

/// Bits 2 and 4 are taken, alone and together, and no other bit is, whether they stand beside it or not.
#[test]
fn incompatible_bits() {
    let mut tried = framed();
    for header_size in HEADER_SIZES {
        for known in [0, 4, 16, 20] {
            let layout = Layout::of_flags(known);
            let mut image = frame_in(layout, header_size, &[(kind::TAG, 64)]);
            let mut number = |flags: u32| {
                image[header::INCOMPATIBLE_FLAGS as usize..][..4]
                    .copy_from_slice(&flags.to_le_bytes());
                tried.number(&image)
            };
            assert_eq!(number(known), 0);
            for bit in (0..32).filter(|bit| ![2, 4].contains(bit)) {
                assert_eq!(number(known | 1 << bit), 4, "{known} and bit {bit}");
            }
            assert_eq!(number(!known), 4);
        }
    }
    tried.print("incompatible bits");
}

/// Every size of DATA, ENTRY and ENTRY_ARRAY around the least ones, in both layouts.
#[test]
fn sizes() {
    let mut tried = framed();
    for (layout, kind, head, part, least) in [
        (Layout::Regular, kind::DATA, 0, 1, 65),
        (Layout::Regular, kind::ENTRY, 64, 16, 80),
        (Layout::Regular, kind::ENTRY_ARRAY, 24, 8, 32),
        (Layout::Compact, kind::DATA, 0, 1, 73),
        (Layout::Compact, kind::ENTRY, 64, 4, 68),
        (Layout::Compact, kind::ENTRY_ARRAY, 24, 4, 28),
    ] {
        for size in 16..=130 {
            let takes = size >= least && (size - head) % part == 0;
            for header_size in HEADER_SIZES {
                let image = frame_in(layout, header_size, &[(kind, size), (8, 16)]);
                let number = tried.number(&image);
                assert_eq!(
                    number,
                    if takes { 0 } else { 6 },
                    "{layout:?} {kind} {size}"
                );
            }
        }
    }
    tried.print("sizes");
}

/// The same file in both layouts, and each called the other: its sizes or its links are wrong then.
#[test]
fn called_the_other() {
    let mut tried = tried();
    for layout in Layout::BOTH {
        for header_size in HEADER_SIZES {
            let mut draft = example();
            (draft.layout, draft.header_size) = (layout, header_size);
            let mut image = drawn(&draft).image;
            assert_eq!(tried.number(&image), 0);
            image[header::INCOMPATIBLE_FLAGS as usize] ^= 16;
            assert_ne!(tried.number(&image), 0);
        }
    }
}

/// Payloads are shown from 72 past the DATA, and from 64 in a regular file. A DATA's tail fields play no
/// part in reading.
#[test]
fn payloads() {
    for (layout, past) in [(Layout::Regular, 64), (Layout::Compact, 72)] {
        let mut image = full_in(layout, 272, &[2, 3], true, 0);
        // The tables of three and two cells, and then the DATA of `A=1`.
        let at = 272 + 64 + 48;
        let shown = raw::Part {
            at: at + past,
            len: 3,
        };
        for word in [0, 1, u64::MAX] {
            if layout == Layout::Compact {
                let tail = (at + data::TAIL_ENTRY_ARRAY_OFFSET) as usize;
                image[tail..tail + 8].copy_from_slice(&word.to_le_bytes());
            }
            assert_eq!(raw::value(&image, b"A", 0), shown);
            let entry = raw::entry(&image, 4);
            assert_eq!(raw::item(&image, entry, 0), shown);
            assert_eq!(raw::by_payload(&image, b"A=1", 4), entry);
            assert_eq!(raw::item(&image, entry, 1), raw::Part::default());
        }
    }
}
