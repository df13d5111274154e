//! A small journal that the cases of `drafts` and `words` change.
use checks::generator::draft::{Array, Data, Draft, Entry, Field, Item, Part};
use checks::generator::render::render;
use checks::generator::rendered::Rendered;
use checks::random::Random;

/// Numbers of the parts that `example` has.
pub const LOT: usize = 0;
pub const DUE: usize = 1;
pub const STALE: usize = 2;
pub const TWIN: usize = 3;
pub const FIELD_LOT: usize = 4;
pub const FIELD_STATE: usize = 5;
pub const FIELD_OFF: usize = 6;
pub const FIRST: usize = 7;
pub const LAST: usize = 9;
pub const UNCOMMITTED: usize = 10;
pub const GLOBAL: usize = 11;
pub const LIST: usize = 12;

/// A journal with one of each thing that has a case of its own. Three entries are committed,
/// the sequence number passes 2^63; the fourth ENTRY is after them and not committed.
pub fn example() -> Draft {
    let data = |payload: &str, entry_offset: Item, entry_array, n_entries| {
        Part::Data(Data {
            payload: payload.as_bytes().to_vec(),
            chained: Some(0),
            listed: true,
            entry_offset,
            entry_array,
            n_entries,
        })
    };
    let field = |name: &str, chained| {
        Part::Field(Field {
            name: name.as_bytes().to_vec(),
            chained,
            heads: true,
        })
    };
    let entry = |n: u64, items: &[usize]| {
        Part::Entry(Entry {
            seqnum: (1 << 63) - 1 + n,
            realtime: 1_700_000_000_000_000 + n,
            monotonic: 50 + n,
            boot_id: [5; 16],
            items: items.to_vec(),
        })
    };
    let mut parts = vec![
        // Its chain has, between two committed entries, one above the last committed.
        data("LOT=12", Item::Entry(FIRST), Some(LIST), 4),
        data("STATE=due", Item::Entry(FIRST), None, 1),
        // Count 0, and links that still stand.
        data("STATE=sown", Item::Entry(UNCOMMITTED), Some(LIST), 0),
        // The payload of another, off the chains and lists.
        data("LOT=12", Item::Raw(0), None, 0),
        field("LOT", Some(0)),
        field("STATE", Some(0)),
        field("STATE", None),
        entry(0, &[LOT, DUE]),
        entry(1, &[LOT]),
        entry(2, &[LOT]),
        entry(7, &[LOT, STALE]),
        Part::Array(Array {
            next: None,
            items: vec![
                Item::Entry(FIRST),
                Item::Entry(FIRST + 1),
                Item::Entry(LAST),
                Item::Raw(0),
            ],
        }),
        Part::Array(Array {
            next: None,
            items: vec![
                Item::Entry(FIRST + 1),
                Item::Entry(UNCOMMITTED),
                Item::Entry(LAST),
            ],
        }),
        Part::Tag,
        Part::Foreign { kind: 8, size: 16 },
        Part::Foreign {
            kind: 255,
            size: 33,
        },
    ];
    if let Part::Data(twin) = &mut parts[TWIN] {
        (twin.chained, twin.listed) = (None, false);
    }
    Draft {
        data_cells: 5,
        field_cells: 3,
        committed: vec![FIRST, FIRST + 1, LAST],
        entry_array: Some(GLOBAL),
        ..Draft::of(parts)
    }
}

pub fn drawn(draft: &Draft) -> Rendered {
    render(draft, &mut Random::new(1))
}
