//! Arrays that are chained ahead: of the header's chain and of a DATA's, before their items are in use.
use super::draft::{array_of, numbered, Data, Draft, Field, Item, Part};
use reading::layout::Layout;

/// A file whose header and only DATA have chains of arrays of 2, 1 and 3 items each, with so many
/// entries, at most 6. Their spare items hold anything.
pub fn ahead(layout: Layout, header_size: u64, keyed: bool, entries: usize) -> Draft {
    let item = |n: usize| match n < entries {
        true => Item::Entry(8 + n),
        false => Item::Raw(0x0102_0304 * n as u64),
    };
    let array = |next, places| array_of(next, places, item);
    let mut parts = vec![
        Part::Data(Data {
            payload: b"A=1".to_vec(),
            chained: Some(0),
            listed: true,
            entry_offset: match entries {
                0 => Item::Raw(0),
                _ => item(0),
            },
            entry_array: Some(5),
            n_entries: entries as u64,
        }),
        Part::Field(Field {
            name: b"A".to_vec(),
            chained: Some(0),
            heads: true,
        }),
        array(Some(3), 0..2),
        array(Some(4), 2..3),
        array(None, 3..6),
        // The DATA's first entry is in no array.
        array(Some(6), 1..3),
        array(Some(7), 3..4),
        array(None, 4..7),
    ];
    parts.extend(numbered(entries, [5; 16], &[0]));
    Draft {
        layout,
        header_size,
        keyed,
        committed: (8..8 + entries).collect(),
        entry_array: Some(2),
        spare: 8_000,
        noise: true,
        ..Draft::of(parts)
    }
}
