//! The file that is damaged. Its parts stand in the order of their numbers, so that of two the one with
//! the lower number has the lower offset.
use crate::generator::draft::{Array, Data, Draft, Entry, Field, Item, Part};
use crate::generator::render::render;
use crate::generator::rendered::Rendered;
use crate::random::Random;
use reading::layout::{Layout, HEADER_SIZES};

/// A payload that stands again in `A1`; on no chain and list.
pub const TWIN: usize = 0;
/// The committed entries, and which DATA they hold: `A1`, `B1`; `A1`, `A2`; `A1`, `A2`, `B2`. Some of
/// these stand behind them.
pub const ENTRIES: [usize; 3] = [1, 6, 11];
/// A FIELD of the name of `FIELD_A`; on no chain.
pub const NAMESAKE: usize = 2;
pub const A1: usize = 3;
pub const B1: usize = 4;
pub const FIELD_A: usize = 5;
pub const A2: usize = 7;
pub const FIELD_B: usize = 8;
/// The header's arrays, without a spare item: two items, and one.
pub const GLOBAL: [usize; 2] = [9, 14];
/// The list of `A1` behind its first entry: two items.
pub const LIST_A1: usize = 10;
pub const B2: usize = 12;
/// In no committed entry, with no FIELD; on its chain.
pub const C: usize = 13;
/// The list of `A2` behind its first entry: one item.
pub const LIST_A2: usize = 15;
/// Not committed; it holds `C`.
pub const UNCOMMITTED: usize = 16;
/// As `NAMESAKE` and `TWIN`, but behind the others.
pub const LATER_NAMESAKE: usize = 17;
pub const LATER_TWIN: usize = 18;

pub const ALL_DATA: [usize; 7] = [TWIN, A1, B1, A2, B2, C, LATER_TWIN];
pub const ALL_FIELDS: [usize; 4] = [NAMESAKE, FIELD_A, FIELD_B, LATER_NAMESAKE];
pub const ALL_ENTRIES: [usize; 4] = [ENTRIES[0], ENTRIES[1], ENTRIES[2], UNCOMMITTED];
pub const ALL_ARRAYS: [usize; 4] = [GLOBAL[0], GLOBAL[1], LIST_A1, LIST_A2];

/// A layout, a header's size, and whether it is keyed.
pub type Form = (Layout, u64, bool);

/// All of them.
pub fn forms() -> impl Iterator<Item = Form> {
    let layouts = Layout::BOTH.into_iter();
    let sizes = layouts.flat_map(|layout| HEADER_SIZES.map(|size| (layout, size)));
    sizes.flat_map(|(layout, size)| [false, true].map(|keyed| (layout, size, keyed)))
}

/// The draft, which opens. In a keyed file the field table stands first.
pub fn sample((layout, header_size, keyed): Form) -> Draft {
    let data = |payload: &str, entry_offset, entry_array, n_entries| Data {
        payload: payload.as_bytes().to_vec(),
        chained: Some(0),
        listed: true,
        entry_offset,
        entry_array,
        n_entries,
    };
    let held = |payload: &str, first: usize, entry_array, n_entries| {
        Part::Data(data(payload, Item::Entry(first), entry_array, n_entries))
    };
    let unheld = |payload: &str, chained| {
        Part::Data(Data {
            chained,
            listed: false,
            ..data(payload, Item::Raw(0), None, 0)
        })
    };
    let field = |name: &str, chained: Option<u64>| {
        Part::Field(Field {
            name: name.as_bytes().to_vec(),
            chained,
            heads: chained.is_some(),
        })
    };
    let entry = |n: u64, items: &[usize]| {
        Part::Entry(Entry {
            seqnum: (1 << 63) - 2 + n,
            realtime: 1_700_000_000_000_000 - n,
            monotonic: 70 + n,
            boot_id: [5; 16],
            items: items.to_vec(),
        })
    };
    let array = |next, entries: &[usize]| {
        Part::Array(Array {
            next,
            items: entries.iter().map(|&it| Item::Entry(it)).collect(),
        })
    };
    let [first, second, third] = ENTRIES;
    Draft {
        layout,
        header_size,
        keyed,
        data_table_first: !keyed,
        data_cells: 5,
        field_cells: 3,
        committed: ENTRIES.to_vec(),
        entry_array: Some(GLOBAL[0]),
        spare: 40,
        ..Draft::of(vec![
            unheld("A=1", None),
            entry(0, &[A1, B1]),
            field("A", None),
            held("A=1", first, Some(LIST_A1), 3),
            held("B=1", first, None, 1),
            field("A", Some(0)),
            entry(1, &[A1, A2]),
            held("A=2", second, Some(LIST_A2), 2),
            field("B", Some(0)),
            array(Some(GLOBAL[1]), &[first, second]),
            array(None, &[second, third]),
            entry(2, &[A1, A2, B2]),
            held("B=2", third, None, 1),
            unheld("C=1", Some(0)),
            array(None, &[third]),
            array(None, &[third]),
            entry(9, &[C]),
            field("A", None),
            unheld("A=1", None),
            Part::Tag,
            Part::Foreign { kind: 9, size: 17 },
        ])
    }
}

pub fn drawn(draft: &Draft) -> Rendered {
    render(draft, &mut Random::new(1))
}

/// The sample with some of its parts drawn in another way.
pub fn redrawn(form: Form, redraw: impl FnOnce(&mut Draft)) -> Rendered {
    let mut draft = sample(form);
    redraw(&mut draft);
    drawn(&draft)
}
