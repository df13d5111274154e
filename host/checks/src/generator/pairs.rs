//! Pairs of files that open, to be shown as one stream.
use super::clock::Ranges;
use super::dice::{once_in, pick};
use super::draft::{Draft, Part};
use super::good::{draft, good};
use super::logged::logged;
use super::render::render;
use super::wish::Wish;
use crate::random::Random;
use reading::layout::Layout;
use reading::refusal::refusal;

pub type Pair = [Vec<u8>; 2];

/// A pair of any of these kinds.
pub fn pair(random: &mut Random) -> Pair {
    match random.below(8) {
        0..=3 => logged(random),
        4 | 5 => drafted(random),
        6 => twins(random),
        _ => {
            let image = good(random).image;
            [image.clone(), image]
        }
    }
}

/// The same one for both files, or two that differ in any one bit.
pub fn seqnum_ids(random: &mut Random) -> [[u8; 16]; 2] {
    let one = random.array();
    let mut other = one;
    if once_in(random, 2) {
        other[random.below(16)] ^= 1 << random.below(8);
    }
    [one, other]
}

/// Two files of all that the rules accept, with stamps of the same ranges.
pub fn drafted(random: &mut Random) -> Pair {
    let ranges = Ranges::new(random);
    seqnum_ids(random).map(|seqnum_id| {
        let wish = Wish {
            tidy: once_in(random, 4),
            entries: 12,
            data: 5,
        };
        let mut draft = draft(random, wish);
        draft.seqnum_id = seqnum_id;
        stamp(random, &mut draft, &ranges);
        render(&draft, random).image
    })
}

/// Stamps the committed entries anew.
fn stamp(random: &mut Random, draft: &mut Draft, ranges: &Ranges) {
    let mut clock = ranges.clock(random);
    for entry in draft.committed.clone() {
        let (at, it) = (clock.tick(random), draft.entry_mut(entry));
        (it.seqnum, it.realtime) = (at.seqnum, at.realtime);
        (it.monotonic, it.boot_id) = (at.monotonic, at.boot_id);
    }
}

/// A file and its like: the same entries at other offsets, under another key and in any layout, often under another
/// seqnum id, and with other stamps for one of them where the rules allow it.
pub fn twins(random: &mut Random) -> Pair {
    let wish = Wish {
        tidy: false,
        entries: 12,
        data: 5,
    };
    let mut draft = draft(random, wish);
    let ranges = Ranges::new(random);
    stamp(random, &mut draft, &ranges);
    let [one, other] = seqnum_ids(random);
    draft.seqnum_id = one;
    let first = render(&draft, random).image;
    draft.seqnum_id = other;
    (draft.keyed, draft.file_id) = (!draft.keyed, random.array());
    draft.layout = pick(random, &Layout::BOTH);
    draft.add(Part::Tag, 0);
    let second = render(&draft, random).image;
    if let Some(entry) = (!draft.committed.is_empty()).then(|| pick(random, &draft.committed)) {
        let it = draft.entry_mut(entry);
        match random.below(3) {
            0 => it.realtime += 1,
            1 => it.monotonic += 1,
            _ => it.boot_id[random.below(16)] ^= 1,
        }
        let changed = render(&draft, random).image;
        if refusal(&changed) == 0 {
            return [first, changed];
        }
    }
    [first, second]
}
