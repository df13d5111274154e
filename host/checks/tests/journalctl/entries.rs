//! Files from the new one, without entries, to hundreds of entries.
use checks::generator::compact::set_layout;
use checks::random::Random;
use reading::layout::Layout;

use crate::check::check;
use crate::written::{append, new_with, nth};

/// Numbers of data and field cells.
pub const CELLS: [(u64, u64); 4] = [(1, 1), (3, 2), (233, 33), (65_536, 1_024)];

/// What a controller of a seed store logs: fields of few values, and one or two with a value of
/// their own. One payload is in every entry, and now and then one is repeated.
pub fn logged(random: &mut Random, n: u64) -> Vec<Vec<u8>> {
    let mut payloads = vec![
        format!("LOT={}", random.below(40)),
        "CONTROLLER=chamber-1".to_string(),
        format!("STATE={}", ["sown", "wet", "dead"][random.below(3)]),
        format!("MESSAGE=germination test {n} counted"),
    ];
    if random.below(3) == 0 {
        payloads.push(format!("SAMPLE={:012x}", random.word() >> 16));
    }
    if random.below(4) == 0 {
        payloads.push(payloads[random.below(payloads.len())].clone());
    }
    payloads.into_iter().map(String::into_bytes).collect()
}

/// A file with so many such entries, and room for some 30 others, with a header of 256 or 272 bytes.
pub fn grown(
    header_size: u64,
    random: &mut Random,
    cells: (u64, u64),
    keyed: u64,
    entries: u64,
) -> Vec<u8> {
    grown_in(Layout::Regular, header_size, random, cells, keyed, entries)
}

/// The same in any layout: the new file is made compact, and the archive writes the rest.
pub fn grown_in(
    layout: Layout,
    header_size: u64,
    random: &mut Random,
    cells: (u64, u64),
    keyed: u64,
    entries: u64,
) -> Vec<u8> {
    let tables = 32 + 16 * (cells.0 + cells.1) as usize;
    let room = 504 * (entries as usize + 30);
    let length = header_size as usize + tables + room;
    let mut image = new_with(header_size, length, cells, keyed);
    set_layout(&mut image, layout);
    for n in 1..=entries {
        append(&mut image, nth(n), &logged(random, n));
    }
    image
}

/// Checked after each append: first and later arrays of the header's chain and of DATA, and entries
/// that fill an array.
#[test]
fn one_by_one() {
    let every = |layout, header_size| CELLS.map(|cells| (layout, header_size, cells));
    let regular = every(Layout::Regular, 256).into_iter();
    let regular = regular.chain(every(Layout::Regular, 272));
    for (layout, header_size, cells) in regular.chain(every(Layout::Compact, 272)) {
        for keyed in [0, 1] {
            let random = &mut Random::new(cells.0 + keyed);
            let mut image = grown_in(layout, header_size, random, cells, keyed, 0);
            check(&image, 0);
            for n in 1..=30 {
                append(&mut image, nth(n), &logged(random, n));
                check(&image, n as usize);
            }
        }
    }
}

#[test]
fn hundreds() {
    for cells in CELLS {
        for (layout, header_size, keyed) in [
            (Layout::Regular, 256, 0),
            (Layout::Regular, 256, 1),
            (Layout::Regular, 272, 0),
            (Layout::Regular, 272, 1),
            (Layout::Compact, 256, 0),
            (Layout::Compact, 272, 1),
        ] {
            let random = &mut Random::new(100 + cells.0 + keyed);
            let image = grown_in(layout, header_size, random, cells, keyed, 300);
            check(&image, 300);
        }
    }
}
