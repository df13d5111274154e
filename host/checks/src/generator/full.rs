//! Images whose chains of arrays have no spare item.
use super::draft::{numbered, Array, Data, Draft, Field, Item, Part};
use super::render::render;
use crate::random::Random;
use reading::layout::Layout;

/// One DATA, one FIELD and as many entries as the arrays of the header's chain have items. The DATA's
/// chain has arrays of the same sizes, less the one item for the inline entry. `spare` bytes are
/// left after the objects.
pub fn full(arrays: &[usize], keyed: bool, spare: u64) -> Vec<u8> {
    full_with(256, arrays, keyed, spare)
}

/// The same with a header of any of the three sizes.
pub fn full_with(header_size: u64, arrays: &[usize], keyed: bool, spare: u64) -> Vec<u8> {
    full_in(Layout::Regular, header_size, arrays, keyed, spare)
}

/// And in any layout.
pub fn full_in(
    layout: Layout,
    header_size: u64,
    arrays: &[usize],
    keyed: bool,
    spare: u64,
) -> Vec<u8> {
    let count: usize = arrays.iter().sum();
    let first = 2 + 2 * arrays.len();
    let entries = first..first + count;
    let items: Vec<Item> = entries.clone().map(Item::Entry).collect();
    let mut shorter = arrays.to_vec();
    *shorter.last_mut().expect("an array") -= 1;
    let mut parts = vec![
        Part::Data(Data {
            payload: b"A=1".to_vec(),
            chained: Some(0),
            listed: true,
            entry_offset: items[0],
            entry_array: Some(2 + arrays.len()),
            n_entries: count as u64,
        }),
        Part::Field(Field {
            name: b"A".to_vec(),
            chained: Some(0),
            heads: true,
        }),
    ];
    for (sizes, items) in [(arrays, &items[..]), (&shorter, &items[1..])] {
        let mut rest = items;
        for (n, &size) in sizes.iter().enumerate() {
            let (now, later) = rest.split_at(size);
            rest = later;
            parts.push(Part::Array(Array {
                next: (n + 1 < sizes.len()).then(|| parts.len() + 1),
                items: now.to_vec(),
            }));
        }
    }
    parts.extend(numbered(count, [0; 16], &[0]));
    let draft = Draft {
        header_size,
        layout,
        keyed,
        data_cells: 3,
        committed: entries.collect(),
        entry_array: Some(2),
        spare,
        ..Draft::of(parts)
    };
    render(&draft, &mut Random::new(1)).image
}
