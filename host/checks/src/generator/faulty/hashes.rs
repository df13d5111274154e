//! 11 by words of the sample: wrong hashes, and links of lists. "At 11 it adds, for the first wrong hash
//! there by offset, the stored and the right value."
use super::sample::*;
use super::{changed, Case};
use crate::generator::rendered::Rendered;
use reading::layout::{data, entry, field, Layout};
use reading::why::Why;

/// A hash that is wrong: the object, the word and what is stored in it.
#[derive(Clone, Copy)]
struct Hash {
    object: u64,
    at: u64,
    stored: u64,
}

/// Every hash of the sample with a bit changed, by rising offset.
fn hashes(made: &Rendered) -> Vec<Hash> {
    let mut words = Vec::new();
    let mut word = |part: usize, at: u64| words.push((made.offsets[part], made.offsets[part] + at));
    for part in ALL_DATA {
        word(part, data::HASH);
    }
    for part in ALL_FIELDS {
        word(part, field::HASH);
    }
    for part in ALL_ENTRIES {
        word(part, entry::XOR_HASH);
        if made.draft.layout == Layout::Regular {
            for item in 0..made.draft.entry(part).items.len() as u64 {
                word(part, entry::ITEMS + 16 * item + 8);
            }
        }
    }
    words.sort();
    words
        .into_iter()
        .map(|(object, at)| Hash {
            object,
            at,
            stored: made.word(at) ^ 1 << (at / 8 % 64),
        })
        .collect()
}

/// Links of lists set anew: the word, its value and the first DATA at fault, where no hash is wrong.
fn links(made: &Rendered) -> Vec<(&'static str, u64, u64, u64)> {
    let of = |part: usize| made.offsets[part];
    let head = |part: usize| of(part) + field::HEAD_DATA_OFFSET;
    let next = |part: usize| of(part) + data::NEXT_FIELD_OFFSET;
    vec![
        // A FIELD's list falls: the DATA met last stands first.
        ("A2 and A1 in the list of B", head(FIELD_B), of(A2), of(A1)),
        ("A1 in the list of B", head(FIELD_B), of(A1), of(A1)),
        ("A2 and A1 behind B2", next(B2), of(A2), of(A1)),
        ("B1 behind A2", next(A2), of(B1), of(A1)),
        ("the twin behind B1", next(B1), of(TWIN), of(TWIN)),
        (
            "a DATA without a FIELD in a list",
            head(FIELD_A),
            of(C),
            of(A1),
        ),
        // Lists of FIELDs that are on no chain.
        ("C off the chains", head(LATER_NAMESAKE), of(C), of(C)),
        ("B2 and B1 off the chains", head(NAMESAKE), of(B2), of(B1)),
        ("no list of A", head(FIELD_A), 0, of(A1)),
        ("no list of B", head(FIELD_B), 0, of(B1)),
        ("A1 alone in its list", head(FIELD_A), of(A1), of(A2)),
        ("B1 alone in its list", head(FIELD_B), of(B1), of(B2)),
        ("A2 alone in its list", next(A2), 0, of(A1)),
        ("B2 alone in its list", next(B2), 0, of(B1)),
    ]
}

/// With a wrong hash.
fn wrong(what: String, image: &[u8], made: &Rendered, hash: Hash) -> Case {
    let mut case = Case::new(what, image, 11, hash.object);
    case.why = Why {
        hash_wrong: 1,
        stored: hash.stored,
        right: made.word(hash.at),
        ..case.why
    };
    case
}

/// Each hash and each link alone, each two hashes, and each link with each hash.
pub fn cases(form: Form) -> Vec<Case> {
    let made = drawn(&sample(form));
    let hashes = hashes(&made);
    let mut cases = Vec::new();
    for (i, &one) in hashes.iter().enumerate() {
        let image = changed(&made, |it| it.set(one.at, one.stored));
        let what = format!("the hash at {}", one.at);
        cases.push(wrong(what, &image, &made, one));
        for other in &hashes[i + 1..] {
            let image = changed(&made, |it| {
                it.set(other.at, other.stored);
                it.set(one.at, one.stored);
            });
            let what = format!("the hashes at {} and {}", one.at, other.at);
            cases.push(wrong(what, &image, &made, one));
        }
    }
    for (what, at, to, place) in links(&made) {
        let image = changed(&made, |it| it.set(at, to));
        cases.push(Case::new(what, &image, 11, place));
        for &hash in &hashes {
            let image = changed(&made, |it| {
                it.set(at, to);
                it.set(hash.at, hash.stored);
            });
            let what = format!("{what}, and the hash at {}", hash.at);
            // `hash_wrong` is about the object at the place, whatever else is wrong there.
            cases.push(match hash.object <= place {
                true => wrong(what, &image, &made, hash),
                false => Case::new(what, &image, 11, place),
            });
        }
    }
    cases.extend(alike(&made));
    cases
}

/// A DATA's hash wrong, and so in the item of the ENTRY before it: the ENTRY is named, by its item.
fn alike(made: &Rendered) -> Option<Case> {
    let [object, held] = [ENTRIES[0], A1].map(|part| made.offsets[part]);
    let at = object + entry::ITEMS + 8;
    let stored = made.word(at) + 1;
    let image = changed(made, |it| {
        it.set(held + data::HASH, stored);
        it.set(at, stored);
    });
    let hash = Hash { object, at, stored };
    let what = "the same wrong hash in an item and its DATA".to_string();
    (made.draft.layout == Layout::Regular).then(|| wrong(what, &image, made, hash))
}
