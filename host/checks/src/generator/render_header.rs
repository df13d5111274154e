//! Writes a draft's header.
use super::rendered::{kind_of, Rendered};
use crate::random::Random;
use reading::layout::{header, kind, table, Layout, COMPACT, KEYED_HASH, SIGNATURE};

pub fn write_header(out: &mut Rendered, random: &mut Random, data_size: u64, field_size: u64) {
    let draft = out.draft.clone();
    out.image[0..8].copy_from_slice(&SIGNATURE);
    out.image[8..12].copy_from_slice(&draft.compatible_flags.to_le_bytes());
    let mut incompatible_flags = if draft.keyed { KEYED_HASH } else { 0 };
    if draft.layout == Layout::Compact {
        incompatible_flags |= COMPACT;
    }
    out.image[12..16].copy_from_slice(&incompatible_flags.to_le_bytes());
    out.set_byte(header::STATE, draft.state);
    for (at, id) in [
        (header::FILE_ID, draft.file_id),
        (header::MACHINE_ID, draft.machine_id),
        (header::BOOT_ID, draft.boot_id),
        (header::SEQNUM_ID, draft.seqnum_id),
    ] {
        out.image[at as usize..at as usize + 16].copy_from_slice(&id);
    }
    let count = |kind: u8| {
        draft
            .parts
            .iter()
            .filter(|part| kind_of(part) == kind)
            .count() as u64
    };
    let entries: Vec<_> = draft
        .committed
        .iter()
        .map(|&part| draft.entry(part).clone())
        .collect();
    let (head, tail) = (entries.first(), entries.last());
    for (at, value) in [
        (header::HEADER_SIZE, draft.header_size),
        (header::ARENA_SIZE, out.arena_end - draft.header_size),
        (header::DATA_HASH_TABLE_OFFSET, out.data_table + 16),
        (header::DATA_HASH_TABLE_SIZE, data_size - 16),
        (header::FIELD_HASH_TABLE_OFFSET, out.field_table + 16),
        (header::FIELD_HASH_TABLE_SIZE, field_size - 16),
        (header::TAIL_OBJECT_OFFSET, out.tail),
        (header::N_OBJECTS, draft.parts.len() as u64 + 2),
        (header::N_ENTRIES, draft.committed.len() as u64),
        (
            header::TAIL_ENTRY_SEQNUM,
            tail.map_or(0, |entry| entry.seqnum),
        ),
        (
            header::HEAD_ENTRY_SEQNUM,
            head.map_or(0, |entry| entry.seqnum),
        ),
        (
            header::ENTRY_ARRAY_OFFSET,
            draft.entry_array.map_or(0, |array| out.offsets[array]),
        ),
        (
            header::HEAD_ENTRY_REALTIME,
            head.map_or(0, |entry| entry.realtime),
        ),
        (
            header::TAIL_ENTRY_REALTIME,
            tail.map_or(0, |entry| entry.realtime),
        ),
        (
            header::TAIL_ENTRY_MONOTONIC,
            tail.map_or(random.word(), |entry| entry.monotonic),
        ),
        (header::N_DATA, count(kind::DATA)),
        (header::N_FIELDS, count(kind::FIELD)),
        (header::N_TAGS, count(kind::TAG)),
        (header::N_ENTRY_ARRAYS, count(kind::ENTRY_ARRAY)),
        (header::DATA_HASH_CHAIN_DEPTH, random.word()),
        (header::FIELD_HASH_CHAIN_DEPTH, random.word()),
    ] {
        out.set(at, value);
    }
}

/// What plays no part in reading: "State, the other counters, head and tail facts of entries
/// and the cells' tails".
pub fn write_free_facts(out: &mut Rendered, random: &mut Random) {
    for at in [144, 160, 168, 184, 192, 200, 208, 216, 224, 232] {
        out.set(at, random.word());
    }
    for (table, cells) in [
        (out.data_table, out.draft.data_cells),
        (out.field_table, out.draft.field_cells),
    ] {
        for cell in 0..cells {
            if random.below(2) == 0 {
                out.set(table + table::CELLS + 16 * cell + 8, random.word());
            }
        }
    }
}
