//! Why a file is refused by 9: which condition applies to the entry that the library names by its
//! position.
use crate::image::{
    bytes, is_compact, word, ENTRY_ARRAY_OFFSET, HEADER_SIZE, N_ENTRIES, SIZE, TAIL_OBJECT_OFFSET,
};
use crate::place::{self, ENTRY};
use crate::plain;
use crate::text::counted;
use crate::why_damaged::Damage;
use wrapper::Offset;

/// Where an ENTRY_ARRAY has the offset of the next one, and from where on its items.
const NEXT_ARRAY: u64 = 16;
const ITEMS: u64 = 24;

/// What is wrong, and what it means.
pub fn damage(image: &[u8], index: u64) -> Option<Damage> {
    let (entry, missing) = (place::entry(index), "results could be missing");
    let mut items = items(image);
    let before = match index {
        0 => None,
        _ => items.nth(index as usize - 1),
    };
    let Some(offset) = items.next() else {
        let count = counted(word(image, N_ENTRIES) as usize, "entry", "entries");
        let what = format!("its header counts {count}, and the list of them ends before {entry}");
        return Some(Damage::new(what, missing));
    };
    if !is_entry(image, offset) {
        let what = format!("{entry} is not where the list of entries has it");
        return Some(Damage::new(what, missing));
    }
    let what = first_number(image, offset).or_else(|| after(image, before?, offset))?;
    let order = "the order of its results can't be trusted";
    Some(Damage::new(format!("{entry} {what}"), order))
}

/// What is wrong with its number alone, if something is.
fn first_number(image: &[u8], offset: u64) -> Option<String> {
    let seqnum = plain::at(image, Offset(offset)).seqnum;
    let what = "has sequence number 0, and the first number is 1";
    (seqnum == 0).then(|| what.to_string())
}

/// What is wrong with an entry after another one, if something is.
fn after(image: &[u8], before: u64, offset: u64) -> Option<String> {
    let [old, new] = [before, offset].map(|at| plain::at(image, Offset(at)));
    if offset <= before {
        Some(format!(
            "stands at offset {offset}, and the one before it at {before}"
        ))
    } else if new.seqnum <= old.seqnum {
        let (old, new) = (old.seqnum, new.seqnum);
        Some(format!(
            "has sequence number {new}, and the one before it has {old}"
        ))
    } else if new.boot_id == old.boot_id && new.monotonic < old.monotonic {
        let (old, new) = (old.monotonic, new.monotonic);
        Some(format!(
            "has the monotonic time {new}, and the one before it, of the same boot, has {old}"
        ))
    } else {
        None
    }
}

/// The items of the header's array chain, which 8 let pass.
fn items(image: &[u8]) -> impl Iterator<Item = u64> + '_ {
    let size = if is_compact(image) { 4 } else { 8 };
    let item = move |at: u64| match size {
        4 => u64::from(u32::from_le_bytes(bytes(image, at))),
        _ => word(image, at),
    };
    let linked = |at: u64| (at != 0).then_some(at);
    let first = linked(word(image, ENTRY_ARRAY_OFFSET));
    let arrays = std::iter::successors(first, move |at| linked(word(image, at + NEXT_ARRAY)));
    arrays.flat_map(move |array| {
        let count = (word(image, array + SIZE) - ITEMS) / size;
        (0..count).map(move |place| item(array + ITEMS + size * place))
    })
}

/// Whether an ENTRY starts at an offset, by the walk, which 6 let pass.
fn is_entry(image: &[u8], offset: u64) -> bool {
    let next = |at: &u64| at + word(image, at + SIZE).next_multiple_of(8);
    let tail = word(image, TAIL_OBJECT_OFFSET);
    let mut objects = std::iter::successors(Some(word(image, HEADER_SIZE)), |at| {
        Some(next(at)).filter(|&at| at <= tail)
    });
    objects.any(|at| at == offset && place::kind(image, Offset(at)) == ENTRY)
}
