//! 11 by the sample drawn in another way, with every hash right: cells, equal payloads and names, and what
//! is missing.
use super::sample::*;
use super::Case;
use crate::generator::draft::Draft;

/// A way to draw the sample, and the part at fault.
type Redraw = (&'static str, usize, fn(&mut Draft));

const ONE_BY_ONE: [Redraw; 30] = [
    // "Of two equal payloads or names, or two neighbours, the later is at fault".
    ("an equal payload before", A1, |it| chain(it, TWIN, 0)),
    ("an equal payload behind", LATER_TWIN, |it| {
        chain(it, LATER_TWIN, 0)
    }),
    ("three equal payloads", A1, |it| {
        chain(it, TWIN, 0);
        chain(it, LATER_TWIN, 0);
    }),
    (
        "two equal payloads, and the held one off its chain",
        A1,
        |it| {
            chain(it, TWIN, 0);
            chain(it, LATER_TWIN, 0);
            off_chain(it, A1);
        },
    ),
    ("an equal name before, with the list", FIELD_A, |it| {
        chain_field(it, NAMESAKE, 0, true)
    }),
    (
        "an equal name behind, with the list",
        LATER_NAMESAKE,
        |it| chain_field(it, LATER_NAMESAKE, 0, true),
    ),
    (
        "an equal name behind, without a list",
        LATER_NAMESAKE,
        |it| chain_field(it, LATER_NAMESAKE, 0, false),
    ),
    ("three equal names", FIELD_A, |it| {
        chain_field(it, NAMESAKE, 0, true);
        chain_field(it, LATER_NAMESAKE, 0, true);
    }),
    // Of two FIELDs of one name on a chain a DATA's FIELD is the first, which has no list here.
    ("an equal name before, without a list", A1, |it| {
        chain_field(it, NAMESAKE, 0, false)
    }),
    ("the list with the second of two FIELDs", A1, |it| {
        chain_field(it, LATER_NAMESAKE, 0, true);
        it.field_mut(FIELD_A).heads = false;
    }),
    // On the chain of another cell a FIELD is nobody's.
    ("an equal name in a wrong cell", LATER_NAMESAKE, |it| {
        chain_field(it, LATER_NAMESAKE, 1, true)
    }),
    ("the FIELD in a wrong cell", A1, |it| {
        chain_field(it, FIELD_A, 1, true)
    }),
    ("the other FIELD in a wrong cell", B1, |it| {
        chain_field(it, FIELD_B, 2, true)
    }),
    ("an equal name in a wrong cell before", NAMESAKE, |it| {
        chain_field(it, NAMESAKE, 2, false)
    }),
    ("a DATA in a wrong cell", C, |it| chain(it, C, 1)),
    ("a held DATA in a wrong cell", B2, |it| chain(it, B2, 3)),
    ("an equal payload in a wrong cell before", TWIN, |it| {
        chain(it, TWIN, 2)
    }),
    (
        "an equal payload in a wrong cell behind",
        LATER_TWIN,
        |it| chain(it, LATER_TWIN, 4),
    ),
    ("no `=`", C, |it| it.data_mut(C).payload = b"C".to_vec()),
    ("no `=`, off the chains", TWIN, |it| {
        it.data_mut(TWIN).payload = b"MESSAGE".to_vec()
    }),
    ("nothing before `=`", LATER_TWIN, |it| {
        it.data_mut(LATER_TWIN).payload = b"=A=1".to_vec()
    }),
    ("no `=` in a committed entry", B1, |it| {
        it.data_mut(B1).payload = b"B".to_vec()
    }),
    // "a missing link or FIELD that of the DATA".
    ("off its chain", A2, |it| off_chain(it, A2)),
    ("off its chain, the first of its FIELD", A1, |it| {
        off_chain(it, A1)
    }),
    ("off its list", B2, |it| it.data_mut(B2).listed = false),
    ("off its list, the first of its FIELD", B1, |it| {
        it.data_mut(B1).listed = false
    }),
    ("no FIELD", B1, |it| it.field_mut(FIELD_B).chained = None),
    ("no FIELD of both names", A1, |it| {
        it.field_mut(FIELD_A).chained = None;
        it.field_mut(FIELD_B).chained = None;
    }),
    ("off its chain, and another off its list before", B1, |it| {
        off_chain(it, A2);
        it.data_mut(B1).listed = false;
    }),
    ("in a wrong cell, and equal payloads before", A1, |it| {
        chain(it, C, 1);
        chain(it, TWIN, 0);
    }),
];

pub fn chain(draft: &mut Draft, part: usize, further: u64) {
    draft.data_mut(part).chained = Some(further);
}

fn off_chain(draft: &mut Draft, part: usize) {
    draft.data_mut(part).chained = None;
}

pub fn chain_field(draft: &mut Draft, part: usize, further: u64, heads: bool) {
    let it = draft.field_mut(part);
    (it.chained, it.heads) = (Some(further), heads);
}

pub fn cases(form: Form) -> Vec<Case> {
    let mut cases = Vec::new();
    for (what, part, redraw) in ONE_BY_ONE {
        let made = redrawn(form, redraw);
        cases.push(Case::new(what, &made.image, 11, made.offsets[part]));
    }
    cases
}
