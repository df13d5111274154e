//! Images grown from a new file by appends.
use super::compact::any_layout;
use super::dice::{between, once_in, pick};
use super::foreign;
use super::requests::fitting;
use crate::random::Random;
use reading::carry::carry_out;
use reading::new_file::{new_file, NewFile};
use reading::plan::append;

/// A new file of any kind, with arguments that are refused now and then; its length too.
pub fn new(random: &mut Random) -> (u64, NewFile) {
    let few = between(random, 1, 9);
    let edge = pick(
        random,
        &[0, 1, 1_024, 1_025, 65_536, 65_537, 1 << 60, u64::MAX],
    );
    let edges = once_in(random, 3);
    let new = NewFile {
        data_cells: if edges && once_in(random, 2) {
            edge
        } else {
            few
        },
        field_cells: if edges && once_in(random, 2) {
            edge
        } else {
            few
        },
        keyed: if edges {
            pick(random, &[0, 1, 2, u64::MAX])
        } else {
            between(random, 0, 1)
        },
        header_size: if edges && once_in(random, 2) {
            pick(random, &[0, 8, 255, 257, 264, 271, 273, 280, u64::MAX])
        } else {
            pick(random, &[256, 272])
        },
        file_id: random.array(),
        machine_id: random.array(),
        boot_id: random.array(),
        seqnum_id: random.array(),
    };
    let cells = new.data_cells.min(70_000) + new.field_cells.min(70_000);
    let tables = new.header_size.min(280) + 32 + 16 * cells;
    let near = pick(
        random,
        &[tables - 8, tables, tables + 8, tables + 1, tables - 1],
    );
    let length = if edges {
        pick(random, &[near, near, 0, 255, 256, 264, 271, 272])
    } else {
        tables + 8 * between(random, 0, 600)
    };
    (length, new)
}

/// A new file, made compact or not, with up to so many appends carried out, and now and then a foreign object between them.
pub fn grown(random: &mut Random, appends: u64) -> Vec<u8> {
    let mut image = loop {
        let (length, new) = new(random);
        let mut image = vec![0; length as usize];
        if length < 100_000 && new_file(&mut image, &new) == 0 {
            break image;
        }
    };
    any_layout(random, &mut image);
    let mut list = vec![0; 16 * 3000];
    for _ in 0..between(random, 0, appends) {
        if once_in(random, 6) {
            let (kind, size) = foreign::any(random);
            foreign::put(&mut image, kind, size);
        }
        let asked = fitting(random, &image);
        let answer = append(&image, &asked.request(), &mut list);
        assert_eq!(
            carry_out(
                &mut image,
                &list,
                answer.stores * (answer.refusal == 0) as u64
            ),
            0
        );
    }
    image
}
