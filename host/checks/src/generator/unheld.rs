//! Old DATA of count 0, which no append makes.
use super::draft::{Array, Data, Draft, Entry, Field, Item, Part};
use reading::layout::Layout;

/// A FIELD with three DATA that no entry holds, and one entry with a fourth.
pub fn unheld(layout: Layout, header_size: u64, keyed: bool, stale: bool) -> Draft {
    let data = |payload: &[u8], n_entries: u64| {
        let entry_offset = if stale || n_entries > 0 {
            Item::Entry(5)
        } else {
            Item::Raw(0)
        };
        Part::Data(Data {
            payload: payload.to_vec(),
            chained: Some(0),
            listed: true,
            entry_offset,
            entry_array: None,
            n_entries,
        })
    };
    let parts = vec![
        data(b"LOT=1", 0),
        data(b"LOT=2", 0),
        data(b"LOT=3", 1),
        data(b"LOT=", 0),
        Part::Field(Field {
            name: b"LOT".to_vec(),
            chained: Some(0),
            heads: true,
        }),
        Part::Entry(Entry {
            seqnum: 1,
            realtime: 0,
            monotonic: 0,
            boot_id: [5; 16],
            items: vec![2],
        }),
        Part::Array(Array {
            next: None,
            items: vec![Item::Entry(5), Item::End],
        }),
    ];
    Draft {
        layout,
        header_size,
        keyed,
        committed: vec![5],
        entry_array: Some(6),
        spare: 2048,
        trailing: 3,
        noise: true,
        ..Draft::of(parts)
    }
}
