//! Links that play no part in reading, but have to land: of DATA and FIELDs off the chains and
//! lists, and of arrays that nothing refers to.
use super::dice::{once_in, pick};
use super::draft::{Draft, Part};
use super::rendered::Rendered;
use crate::random::Random;
use reading::image::name_of;
use reading::layout::{array, data, field};

/// Sets such links in an image that is not for appends.
pub fn stray_links(random: &mut Random, made: &mut Rendered) {
    for number in 0..made.draft.parts.len() {
        if !once_in(random, 2) {
            continue;
        }
        let at = made.offsets[number];
        match made.draft.parts[number].clone() {
            Part::Data(it) => {
                let others = offsets(made, |part| matches!(part, Part::Data(_)));
                if it.chained.is_none() {
                    set_one(
                        random,
                        made,
                        at + data::NEXT_HASH_OFFSET,
                        &others,
                        |other| other > at,
                    );
                }
                if !it.listed {
                    set_one(
                        random,
                        made,
                        at + data::NEXT_FIELD_OFFSET,
                        &others,
                        |other| other < at,
                    );
                }
            }
            Part::Field(it) if it.chained.is_none() => {
                let others = offsets(made, |part| matches!(part, Part::Field(_)));
                set_one(
                    random,
                    made,
                    at + field::NEXT_HASH_OFFSET,
                    &others,
                    |other| other > at,
                );
                if it.heads {
                    // Its list may begin anywhere in the list of its name.
                    let listed = offsets(made, |part| match part {
                        Part::Data(data) => data.listed && name_of(&data.payload) == Some(&it.name),
                        _ => false,
                    });
                    set_one(random, made, at + field::HEAD_DATA_OFFSET, &listed, |_| {
                        true
                    });
                }
            }
            Part::Array(it) if it.next.is_none() && !referred(&made.draft, number) => {
                let others = offsets(made, |part| matches!(part, Part::Array(_)));
                set_one(
                    random,
                    made,
                    at + array::NEXT_ENTRY_ARRAY_OFFSET,
                    &others,
                    |other| other > at,
                );
            }
            _ => {}
        }
    }
}

fn offsets(made: &Rendered, test: impl Fn(&Part) -> bool) -> Vec<u64> {
    made.draft
        .in_order(test)
        .into_iter()
        .map(|part| made.offsets[part])
        .collect()
}

fn set_one(
    random: &mut Random,
    made: &mut Rendered,
    at: u64,
    offsets: &[u64],
    test: impl Fn(u64) -> bool,
) {
    let fits: Vec<u64> = offsets
        .iter()
        .copied()
        .filter(|&offset| test(offset))
        .collect();
    if !fits.is_empty() {
        made.set(at, pick(random, &fits));
    }
}

fn referred(draft: &Draft, array: usize) -> bool {
    let by = |part: &Part| match part {
        Part::Data(data) => data.entry_array == Some(array),
        Part::Array(other) => other.next == Some(array),
        _ => false,
    };
    draft.entry_array == Some(array) || draft.parts.iter().any(by)
}

/// DATA of equal lists share one chain of arrays now and then.
pub fn share_arrays(random: &mut Random, draft: &mut Draft) {
    let data = draft.in_order(|part| matches!(part, Part::Data(_)));
    for &one in &data {
        for &other in &data {
            let holders = draft.holders(one);
            let plain = |part: usize| draft.data(part).n_entries == holders.len() as u64;
            if holders == draft.holders(other) && plain(one) && plain(other) && once_in(random, 3) {
                draft.data_mut(other).entry_array = draft.data(one).entry_array;
            }
        }
    }
}
