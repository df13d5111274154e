//! Writes a draft as an image.
use super::draft::{Draft, Item, Part};
use super::render_header::{write_free_facts, write_header};
use super::render_links::{write_chains, write_lists};
use super::render_tail::{write_data_tails, write_free_tails, write_tail};
use super::rendered::{hash, kind_of, size, Rendered};
use crate::random::Random;
use reading::layout::{array, data, entry, field, kind, Layout};
use reading::lookup3::hashlittle2;

fn eights(size: u64) -> u64 {
    (size + 7) / 8 * 8
}

pub fn render(draft: &Draft, random: &mut Random) -> Rendered {
    let data_size = 16 + 16 * draft.data_cells;
    let field_size = 16 + 16 * draft.field_cells;
    let first = draft.header_size;
    let (data_table, field_table) = if draft.data_table_first {
        (first, first + data_size)
    } else {
        (first + field_size, first)
    };
    let mut offsets = vec![0; draft.parts.len()];
    let mut end = first + data_size + field_size;
    let mut tail = data_table.max(field_table);
    for &part in &draft.order {
        tail = end;
        offsets[part] = end;
        end += eights(size(draft.layout, &draft.parts[part]));
    }
    let arena_end = end + draft.spare;
    let mut image = vec![0; (arena_end + draft.trailing) as usize];
    if draft.noise {
        random.fill(&mut image);
        image[data_table as usize..(data_table + data_size) as usize].fill(0);
        image[field_table as usize..(field_table + field_size) as usize].fill(0);
    }
    let mut out = Rendered {
        draft: draft.clone(),
        image,
        offsets,
        data_table,
        field_table,
        tail,
        arena_end,
    };
    for (at, kind, size) in [
        (data_table, kind::DATA_HASH_TABLE, data_size),
        (field_table, kind::FIELD_HASH_TABLE, field_size),
    ] {
        object(&mut out, at, kind, size);
    }
    let last = draft
        .committed
        .last()
        .map_or(0, |&entry| out.offsets[entry]);
    for &part in &draft.order {
        write_part(&mut out, part, last, end);
    }
    write_chains(&mut out);
    write_lists(&mut out);
    write_header(&mut out, random, data_size, field_size);
    write_tail(&mut out);
    write_data_tails(&mut out);
    if draft.free_facts {
        write_free_facts(&mut out, random);
        write_free_tails(&mut out, random);
    }
    out
}

/// Type, flags (the bits above 2 are free) and size.
fn object(out: &mut Rendered, at: u64, kind: u8, size: u64) {
    out.set_byte(at, kind);
    let flags = out.image[at as usize + 1] & !7;
    out.set_byte(at + 1, flags);
    out.set(at + 8, size);
}

fn resolve(out: &Rendered, item: Item, last: u64, end: u64) -> u64 {
    match item {
        Item::Entry(part) => out.offsets[part],
        Item::Above(far) => last + 1 + far,
        Item::End => end,
        Item::Raw(value) => value,
    }
}

fn write_part(out: &mut Rendered, number: usize, last: u64, end: u64) {
    let part = out.draft.parts[number].clone();
    let (at, layout) = (out.offsets[number], out.draft.layout);
    object(out, at, kind_of(&part), size(layout, &part));
    match part {
        Part::Data(it) => {
            let payload_hash = hash(&out.draft, &it.payload);
            out.set(at + data::HASH, payload_hash);
            out.set(at + data::NEXT_HASH_OFFSET, 0);
            out.set(at + data::NEXT_FIELD_OFFSET, 0);
            let entry_offset = resolve(out, it.entry_offset, last, end);
            out.set(at + data::ENTRY_OFFSET, entry_offset);
            let entry_array = it.entry_array.map_or(0, |array| out.offsets[array]);
            out.set(at + data::ENTRY_ARRAY_OFFSET, entry_array);
            out.set(at + data::N_ENTRIES, it.n_entries);
            let start = (at + layout.payload()) as usize;
            out.image[start..start + it.payload.len()].copy_from_slice(&it.payload);
        }
        Part::Field(it) => {
            let name_hash = hash(&out.draft, &it.name);
            out.set(at + field::HASH, name_hash);
            out.set(at + field::NEXT_HASH_OFFSET, 0);
            out.set(at + field::HEAD_DATA_OFFSET, 0);
            let start = (at + field::NAME) as usize;
            out.image[start..start + it.name.len()].copy_from_slice(&it.name);
        }
        Part::Entry(it) => {
            out.set(at + entry::SEQNUM, it.seqnum);
            out.set(at + entry::REALTIME, it.realtime);
            out.set(at + entry::MONOTONIC, it.monotonic);
            let boot = (at + entry::BOOT_ID) as usize;
            out.image[boot..boot + 16].copy_from_slice(&it.boot_id);
            let mut items = it.items.clone();
            items.sort_by_key(|&part| out.offsets[part]);
            let mut xor_hash = 0;
            for (i, part) in items.into_iter().enumerate() {
                let payload = out.draft.data(part).payload.clone();
                let payload_hash = hash(&out.draft, &payload);
                let item = at + entry::ITEMS + layout.entry_item() * i as u64;
                out.set_item(item, out.offsets[part]);
                if layout == Layout::Regular {
                    out.set(item + 8, payload_hash);
                }
                xor_hash ^= if out.draft.keyed_xor {
                    payload_hash
                } else {
                    hashlittle2(&payload)
                };
            }
            out.set(at + entry::XOR_HASH, xor_hash);
        }
        Part::Array(it) => {
            let next = it.next.map_or(0, |next| out.offsets[next]);
            out.set(at + array::NEXT_ENTRY_ARRAY_OFFSET, next);
            for (i, &item) in it.items.iter().enumerate() {
                let value = resolve(out, item, last, end);
                out.set_item(at + array::ITEMS + layout.array_item() * i as u64, value);
            }
        }
        Part::Tag | Part::Foreign { .. } => {}
    }
}
