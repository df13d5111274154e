//! Links set anew: chains that run into one another, lists of several FIELDs in one.
use super::links::wrong_target;
use crate::generator::dice::{once_in, pick};
use crate::generator::rendered::Rendered;
use crate::random::Random;
use reading::image::Object;
use reading::layout::{array, data, entry, field, kind, table, Layout};

/// A word that is a link: where it stands, and on which objects it may land.
struct Link {
    at: u64,
    kind: u8,
    targets: Vec<u64>,
}

/// The links of chains, lists and arrays in an object.
fn links(made: &Rendered, objects: &[Object], object: &Object) -> Vec<Link> {
    let here = object.offset;
    let link = |at: u64, kind: u8, fits: &dyn Fn(u64) -> bool| Link {
        at: here + at,
        kind,
        targets: objects
            .iter()
            .filter(|other| other.kind == kind && fits(other.offset))
            .map(|other| other.offset)
            .collect(),
    };
    let (later, earlier) = (|other: u64| other > here, |other: u64| other < here);
    let cells = |count: u64, kind: u8| -> Vec<Link> {
        let heads = (0..count).map(|cell| table::CELLS + 16 * cell);
        heads.map(|at| link(at, kind, &|_| true)).collect()
    };
    match object.kind {
        kind::DATA_HASH_TABLE => cells(made.draft.data_cells, kind::DATA),
        kind::FIELD_HASH_TABLE => cells(made.draft.field_cells, kind::FIELD),
        kind::DATA => vec![
            link(data::NEXT_HASH_OFFSET, kind::DATA, &later),
            link(data::NEXT_FIELD_OFFSET, kind::DATA, &earlier),
        ],
        kind::FIELD => vec![
            link(field::NEXT_HASH_OFFSET, kind::FIELD, &later),
            link(field::HEAD_DATA_OFFSET, kind::DATA, &|_| true),
        ],
        kind::ENTRY_ARRAY => vec![link(
            array::NEXT_ENTRY_ARRAY_OFFSET,
            kind::ENTRY_ARRAY,
            &later,
        )],
        _ => Vec::new(),
    }
}

/// For 11: some links of chains and lists land elsewhere, and some hashes are wrong.
pub fn landing(random: &mut Random, made: &mut Rendered, objects: &[Object]) {
    let rarely = pick(random, &[2, 4, 10, 30]);
    for object in objects {
        for link in links(made, objects, object) {
            if object.kind == kind::ENTRY_ARRAY || !once_in(random, rarely) {
                continue;
            }
            match link.targets.is_empty() || once_in(random, 4) {
                true => made.set(link.at, 0),
                false => made.set(link.at, pick(random, &link.targets)),
            }
        }
        if once_in(random, 2 * rarely) {
            wrong_hash(random, made, object);
        }
    }
}

/// A hash in an object, if it has one, that is next to the right one.
fn wrong_hash(random: &mut Random, made: &mut Rendered, object: &Object) {
    let at = match object.kind {
        kind::DATA => data::HASH,
        kind::FIELD => field::HASH,
        kind::ENTRY if made.draft.layout == Layout::Regular && once_in(random, 2) => {
            let items = (object.size - entry::ITEMS) / made.draft.layout.entry_item();
            entry::ITEMS + 16 * random.below(items as usize) as u64 + 8
        }
        kind::ENTRY => entry::XOR_HASH,
        _ => return,
    };
    let wrong = made.word(object.offset + at) ^ 1 << random.below(64);
    made.set(object.offset + at, wrong);
}

/// For 8: some links and items land where they may not.
pub fn any_links(random: &mut Random, made: &mut Rendered, objects: &[Object]) {
    let rarely = pick(random, &[4, 10, 30]);
    for object in objects {
        let mut all = links(made, objects, object);
        if object.kind == kind::DATA {
            for (at, kind) in [
                (data::ENTRY_OFFSET, kind::ENTRY),
                (data::ENTRY_ARRAY_OFFSET, kind::ENTRY_ARRAY),
            ] {
                let (at, targets) = (object.offset + at, Vec::new());
                all.push(Link { at, kind, targets });
            }
        }
        for link in all {
            if once_in(random, rarely) {
                let wrong = wrong_target(random, made, link.kind);
                let any = pick(random, objects).offset;
                made.set(link.at, pick(random, &[wrong, any]));
            }
        }
        if object.kind == kind::ENTRY && once_in(random, rarely) {
            let item = made.draft.layout.entry_item();
            let count = (object.size - entry::ITEMS) / item;
            let at = object.offset + entry::ITEMS + item * random.below(count as usize) as u64;
            let any = pick(random, objects).offset;
            made.set_item(at, pick(random, &[any, any, 0]));
        }
    }
}
