//! Writes a draft's tail fields: the late ones of its header, as far as it has them, and in a compact
//! file those of each DATA.
use super::dice::once_in;
use super::draft::Part;
use super::rendered::Rendered;
use crate::random::Random;
use reading::layout::{data, header, Layout};

/// The array of the last committed item, the committed items in it, and the last entry; 0 when there
/// is none.
pub fn write_tail(out: &mut Rendered) {
    let (array, count) = last_array(out, out.draft.entry_array, out.draft.committed.len() as u64);
    let last = out.draft.committed.last().map(|&part| out.offsets[part]);
    write(out, array, count, last.unwrap_or(0));
}

/// The array of a DATA's last counted item and the counted items in it; the first entry counted is not
/// in an array.
pub fn write_data_tails(out: &mut Rendered) {
    for part in data_parts(out) {
        let it = out.draft.data(part);
        let (first, items) = (it.entry_array, it.n_entries.saturating_sub(1));
        let (array, count) = last_array(out, first, items);
        write_data(out, part, array, count);
    }
}

/// Of the chain that starts at a part, the array that holds the last of so many items, and how many of
/// them it holds.
fn last_array(out: &Rendered, first: Option<usize>, items: u64) -> (u32, u32) {
    let (mut array, mut count) = (0, 0);
    let (mut left, mut next) = (items, first);
    while let (Some(part), true) = (next, left > 0) {
        let Part::Array(it) = &out.draft.parts[part] else {
            panic!("no ENTRY_ARRAY")
        };
        (array, count) = (out.offsets[part], left.min(it.items.len() as u64));
        left -= count;
        next = it.next;
    }
    (array as u32, count as u32)
}

/// What plays no part in reading: "head and tail facts of entries", and a DATA's tail fields.
pub fn write_free_tails(out: &mut Rendered, random: &mut Random) {
    let word = random.word();
    write(out, word as u32, (word >> 32) as u32, random.word());
    for part in data_parts(out) {
        if once_in(random, 2) {
            let word = random.word();
            write_data(out, part, word as u32, (word >> 32) as u32);
        }
    }
}

/// The DATA of a compact file; none of a regular one, whose DATA have no such fields.
fn data_parts(out: &Rendered) -> Vec<usize> {
    match out.draft.layout {
        Layout::Regular => Vec::new(),
        Layout::Compact => out.draft.in_order(|part| matches!(part, Part::Data(_))),
    }
}

fn write_data(out: &mut Rendered, part: usize, array: u32, count: u32) {
    let at = out.offsets[part];
    out.set_half(at + data::TAIL_ENTRY_ARRAY_OFFSET, array);
    out.set_half(at + data::TAIL_ENTRY_ARRAY_N_ENTRIES, count);
}

fn write(out: &mut Rendered, array: u32, count: u32, entry: u64) {
    if out.draft.header_size >= 264 {
        out.set_half(header::TAIL_ENTRY_ARRAY_OFFSET, array);
        out.set_half(header::TAIL_ENTRY_ARRAY_N_ENTRIES, count);
    }
    if out.draft.header_size >= 272 {
        out.set(header::TAIL_ENTRY_OFFSET, entry);
    }
}
