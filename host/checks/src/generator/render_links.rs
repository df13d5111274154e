//! Writes a draft's hash chains and FIELD lists.
use super::draft::Part;
use super::rendered::{hash, Rendered};
use reading::image::name_of;
use reading::layout::{data, field, table};

/// The cells, each chain by rising offset.
pub fn write_chains(out: &mut Rendered) {
    for number in out.draft.order.clone() {
        let (table, cells, bytes, chained) = match &out.draft.parts[number] {
            Part::Data(it) => (
                out.data_table,
                out.draft.data_cells,
                &it.payload,
                it.chained,
            ),
            Part::Field(it) => (out.field_table, out.draft.field_cells, &it.name, it.chained),
            _ => continue,
        };
        let Some(further) = chained else { continue };
        let cell = (hash(&out.draft, bytes) % cells + further) % cells;
        let cell = table + table::CELLS + 16 * cell;
        let (here, tail) = (out.offsets[number], out.word(cell + 8));
        if tail == 0 {
            out.set(cell, here);
        } else {
            out.set(tail + data::NEXT_HASH_OFFSET, here);
        }
        out.set(cell + 8, here);
    }
}

/// The FIELDs' lists, by falling offset.
pub fn write_lists(out: &mut Rendered) {
    let mut heads: Vec<(Vec<u8>, u64)> = Vec::new();
    for number in out.draft.order.clone() {
        let Part::Data(it) = &out.draft.parts[number] else {
            continue;
        };
        if !it.listed {
            continue;
        }
        let name = name_of(&it.payload).unwrap_or(b"").to_vec();
        let here = out.offsets[number];
        match heads.iter_mut().find(|(other, _)| *other == name) {
            None => heads.push((name, here)),
            Some((_, head)) => {
                let earlier = *head;
                *head = here;
                out.set(here + data::NEXT_FIELD_OFFSET, earlier);
            }
        }
    }
    for number in out.draft.order.clone() {
        let Part::Field(it) = &out.draft.parts[number] else {
            continue;
        };
        if let (true, Some((_, head))) = (it.heads, heads.iter().find(|(name, _)| *name == it.name))
        {
            out.set(out.offsets[number] + field::HEAD_DATA_OFFSET, *head);
        }
    }
}
