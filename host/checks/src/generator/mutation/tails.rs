//! Mutations of a DATA's tail fields, for refusal 14: another array of its chain, of another chain or
//! none, one off, 0 where an item is counted in an array and not 0 where none is.
use super::late::{chain, counts, set_other};
use crate::generator::dice::{once_in, pick};
use crate::generator::draft::Part;
use crate::generator::rendered::Rendered;
use crate::random::Random;
use reading::layout::{data, Layout};
use reading::refusal::clause::*;

/// Another value for the field of a clause; false where no DATA has it.
pub fn mutate(clause: Clause, random: &mut Random, made: &mut Rendered) -> bool {
    let parts = made.draft.in_order(|part| matches!(part, Part::Data(_)));
    if parts.is_empty() || made.draft.layout == Layout::Regular {
        return false;
    }
    let part = pick(random, &parts);
    let (here, it) = (made.offsets[part], made.draft.data(part));
    let (at, near) = match clause {
        DATA_TAIL_ARRAY => {
            let own = chain(made, it.entry_array);
            let others = chain(made, made.draft.entry_array);
            let near = if own.is_empty() || once_in(random, 4) {
                others
            } else {
                own
            };
            (here + data::TAIL_ENTRY_ARRAY_OFFSET, near)
        }
        _ => {
            let at = here + data::TAIL_ENTRY_ARRAY_N_ENTRIES;
            (at, counts(made, at, it.n_entries))
        }
    };
    set_other(random, made, at, &near);
    true
}
