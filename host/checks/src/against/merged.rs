//! The stream of two images by the archive and by the reading.
use reading::merged_answers::{Merged, MergedPage, MergedPart, Opened};
use wrapper::raw;

/// The archive's step in the reading's words.
pub fn step(first: &[u8], second: &[u8], at: [u64; 2]) -> Merged {
    let is = raw::merged(first, second, at[0], at[1]);
    Merged {
        refusal: is.refusal,
        file: is.file,
        entry: is.entry,
        next_first: is.next_first,
        next_second: is.next_second,
    }
}

/// The archive's payload of an item.
pub fn item(first: &[u8], second: &[u8], at: [u64; 2], place: u64) -> MergedPart {
    let is = raw::merged_item(first, second, at[0], at[1], place);
    MergedPart {
        file: is.file,
        at: is.at,
        len: is.len,
    }
}

/// The archive's page.
pub fn page(first: &[u8], second: &[u8], at: [u64; 2], page: &mut [u8]) -> MergedPage {
    let is = raw::page_merged(first, second, at[0], at[1], page);
    MergedPage {
        refusal: is.refusal,
        file: is.file,
        count: is.count,
        next: is.next,
        next_first: is.next_first,
        next_second: is.next_second,
    }
}

/// A step with two of its payloads and a page of a length from each of these pairs of places. The
/// refusal that both answer, or what differs.
pub fn compare(images: [&[u8]; 2], from: &[[u64; 2]], length: usize) -> Result<u64, String> {
    let [first, second] = images;
    let opened = Opened::new(first, second);
    for &at in from {
        let [at_first, at_second] = at;
        let (is, right) = (step(first, second, at), opened.merged(at_first, at_second));
        if is != right {
            return Err(format!("from {at:?}: {is:?}, and not {right:?}"));
        }
        for place in [0, 1] {
            let is = item(first, second, at, place);
            let right = opened.item(at_first, at_second, place);
            if is != right {
                return Err(format!(
                    "item {place} from {at:?}: {is:?}, and not {right:?}"
                ));
            }
        }
        let (mut one, mut other) = (vec![7; length], vec![7; length]);
        let is = page(first, second, at, &mut one);
        let right = opened.page(at_first, at_second, &mut other);
        if is != right || one != other {
            return Err(format!(
                "{length} bytes from {at:?}: {is:?}, and not {right:?}"
            ));
        }
    }
    Ok(opened.0.err().map_or(0, |refused| refused.number))
}
