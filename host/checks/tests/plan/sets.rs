//! Every set of the numbers of an append together, on files of each header size and layout: the first in the
//! order of tests is the answer, and 25 stands between 12 and 13.
use checks::against::plan::Append;
use checks::generator::frame::set;
use checks::generator::full::full_in;
use checks::generator::worked::request;
use reading::image::{layout, le64, Image};
use reading::layout::{data, header, kind, Layout, HEADER_SIZES};
use reading::request::packed;

use crate::made::Tried;

/// Compatible flags, and whether they are 12 in a header of 272 and in a shorter one.
const FLAGS: [(u32, bool, bool); 7] = [
    (0, false, false),
    (1 << 1, false, true),
    (1 << 0, true, true),
    (3, true, true),
    (1 << 2, true, true),
    (1 << 31 | 1 << 1, true, true),
    (1 << 9, true, true),
];

/// A file with a fault for each of these numbers from 13 on.
fn damaged(whole: &[u8], has: impl Fn(u64) -> bool, late: bool) -> Vec<u8> {
    let mut image = whole.to_vec();
    if has(13) {
        image[header::STATE as usize] = 1;
    }
    if has(14) {
        let data = Image::walked(&image).of_kind(kind::DATA)[0].offset;
        let at = match layout(&image) {
            Layout::Compact => data + data::TAIL_ENTRY_ARRAY_OFFSET,
            Layout::Regular if late => header::TAIL_ENTRY_OFFSET,
            Layout::Regular => header::N_DATA,
        };
        let is = le64(&image, at);
        set(&mut image, at, is + 1);
    }
    if has(18) {
        let tail = le64(&image, header::TAIL_OBJECT_OFFSET);
        let end = tail + le64(&image, tail + 8).next_multiple_of(8);
        let arena_size = end + 64 - le64(&image, header::HEADER_SIZE);
        set(&mut image, header::ARENA_SIZE, arena_size);
    }
    image
}

#[test]
fn every_set_of_numbers() {
    let mut tried = Tried::default();
    let fields = packed(&[b"A=1", b"A=2"]);
    let regular = HEADER_SIZES.map(|header_size| (Layout::Regular, header_size));
    for (layout, header_size) in regular.into_iter().chain([(Layout::Compact, 272)]) {
        let whole = full_in(layout, header_size, &[4], header_size != 256, 4_000);
        for (flags, of_272, of_others) in FLAGS {
            let is_12 = if header_size == 272 {
                of_272
            } else {
                of_others
            };
            for set_of in 0u32..128 {
                let has = |number: u64| set_of >> (number - 13) & 1 == 1;
                let mut image = damaged(&whole, has, header_size == 272 && flags == 2);
                image[8..12].copy_from_slice(&flags.to_le_bytes());
                let mut ask = request(&fields, 5, 5, 5);
                if has(15) {
                    ask.machine_id[15] ^= 0x80;
                }
                if has(16) {
                    ask.fields = &fields[..fields.len() - 1];
                }
                if has(17) {
                    ask.seqnum = 4;
                }
                let append = Append::new(&image, ask);
                let length = if has(19) { 31 } else { 16 * 500 };
                let first = match (is_12, header_size) {
                    (true, _) => 12,
                    (false, 264) => 25,
                    _ => (13..=19).find(|&number| has(number)).unwrap_or(0),
                };
                let (number, _) = tried.with_list(&append, length);
                assert_eq!(number, first, "{header_size}, {flags}, {set_of:07b}");
            }
        }
    }
    tried.print("every set of numbers");
}
