//! Every clause of 1 to 11 in files of every kind: everyone says the same, and where a rule has several
//! conditions, the one that is said applies by the independent reading.
use crate::in_full::{everyone, facts, in_full, InFull};
use crate::person::{file, folder};
use checks::generator::mutation::{targeted, untargeted};
use checks::random::Random;
use reading::refusal::clause::*;
use reading::refusal::{clauses, refusal, CLAUSES};
use std::collections::BTreeSet;

/// A number, words of a sentence, and the clauses of which one has to apply. The first words that are
/// found decide.
type Row = (u64, &'static str, &'static [Clause]);

const OBJECTS: [Row; 6] = [
    (6, " only ", &[OBJECT_HEADER_PASSES_END]),
    (6, " no object stands at ", &[TYPE_ZERO]),
    (6, " is compressed, ", &[FLAG_BIT_0, FLAG_BIT_1, FLAG_BIT_2]),
    (6, " are left there, ", &[OBJECT_PASSES_END]),
    (
        6,
        " as no ",
        &[
            DATA_BELOW,
            FIELD_BELOW,
            ENTRY_BELOW,
            ENTRY_NOT_ITEMS,
            DATA_TABLE_BELOW,
            DATA_TABLE_NOT_CELLS,
            FIELD_TABLE_BELOW,
            FIELD_TABLE_NOT_CELLS,
            ARRAY_BELOW,
            ARRAY_NOT_ITEMS,
            TAG_NOT_64,
            FOREIGN_BELOW,
        ],
    ),
    (
        6,
        " its header has the last object at ",
        &[TAIL_ZERO, TAIL_IN_HEADER, TAIL_IN_OBJECT, TAIL_PAST_END],
    ),
];

const LINKS: [Row; 7] = [
    (8, " its header has the list of entries ", &[HEADER_ARRAY]),
    (8, " hash table of the field values at ", &[DATA_CELL_HEAD]),
    (8, " hash table of the field names at ", &[FIELD_CELL_HEAD]),
    (8, " entry array at ", &[ARRAY_NEXT_KIND, ARRAY_NEXT_ORDER]),
    (
        8,
        " the entry at ",
        &[ITEM_ZERO, ITEM_KIND, ITEMS_EQUAL, ITEMS_FALLING],
    ),
    (
        8,
        " the field name at ",
        &[FIELD_NEXT_HASH_KIND, FIELD_NEXT_HASH_ORDER, HEAD_DATA_KIND],
    ),
    (
        8,
        " the field value at ",
        &[
            DATA_NEXT_HASH_KIND,
            DATA_NEXT_HASH_ORDER,
            NEXT_FIELD_KIND,
            NEXT_FIELD_ORDER,
            ENTRY_OFFSET_KIND,
            ENTRY_ARRAY_KIND,
        ],
    ),
];

const ORDER: [Row; 6] = [
    (
        9,
        " and the list of them ends before ",
        &[COUNT_ABOVE_CHAIN],
    ),
    (
        9,
        " is not where the list of entries has it, ",
        &[COMMITTED_ZERO, COMMITTED_KIND],
    ),
    (9, " and the first number is 1, ", &[SEQNUM_ZERO]),
    (9, " stands at offset ", &[OFFSETS_EQUAL, OFFSETS_FALLING]),
    (
        9,
        " has sequence number ",
        &[SEQNUMS_EQUAL, SEQNUMS_FALLING],
    ),
    (9, " has the monotonic time ", &[MONOTONIC_FALLING]),
];

const HASHES: [Row; 3] = [
    (
        11,
        " does not fit ",
        &[DATA_HASH, FIELD_HASH, ITEM_HASH, XOR_HASH],
    ),
    (
        11,
        " has no name before a =, ",
        &[NO_EQUALS_SIGN, NOTHING_BEFORE],
    ),
    (
        11,
        ", the index has ",
        &[
            DATA_WRONG_CELL,
            FIELD_WRONG_CELL,
            EQUAL_PAYLOADS,
            EQUAL_NAMES,
            OTHER_NAME_CHAINED,
            OTHER_NAME_OFF,
            MISSING_FROM_CELL,
            MISSING_FROM_LIST,
            NO_FIELD,
        ],
    ),
];

/// The words that are said, where the number has several; one of their clauses applies to the image.
fn said(full: &InFull, image: &[u8]) -> Option<&'static str> {
    let found = clauses(image);
    assert_eq!(full.number, found[0].number, "{found:?}");
    if ![6, 8, 9, 11].contains(&full.number) {
        return None;
    }
    let rows = OBJECTS.iter().chain(&LINKS).chain(&ORDER).chain(&HASHES);
    let mut rows = rows.filter(|(number, ..)| *number == full.number);
    let row = rows.find(|(_, words, _)| full.sentence.contains(words));
    let (_, words, of) = row.unwrap_or_else(|| panic!("{}", full.sentence));
    let applies = of.iter().any(|it| found.contains(it));
    assert!(applies, "{}\n{found:?}", full.sentence);
    Some(words)
}

#[test]
fn each() {
    let folder = folder("why-clauses");
    let (mut met, mut words) = ([0; 12], BTreeSet::new());
    for &clause in CLAUSES {
        // A list of entries that ends too early is rare.
        let seeds = if clause == COUNT_ABOVE_CHAIN { 20 } else { 3 };
        for seed in 0..seeds {
            let image = targeted(clause, &mut Random::new(100 * clause.number + seed));
            if refusal(&image) == 0 {
                continue;
            }
            let full = everyone(&file(&folder, "damaged.journal", &image));
            words.extend(said(&full, &image));
            met[full.number as usize] += 1;
        }
    }
    assert!(met[1..].iter().all(|&n| n > 0), "{met:?}");
    // All words were said of some file.
    let all = OBJECTS.len() + LINKS.len() + ORDER.len() + HASHES.len();
    assert_eq!(words.len(), all, "{words:?}");
}

/// Several damages at once, of any kind.
#[test]
fn several() {
    let folder = folder("why-several");
    let mut met = [0; 12];
    for seed in 0..400 {
        let image = untargeted(&mut Random::new(seed + 5_000));
        let path = file(&folder, "damaged.journal", &image);
        match refusal(&image) {
            0 => assert_eq!(facts(&path), "refusal 0\n"),
            number => {
                let full = in_full(&path);
                said(&full, &image);
                let start = format!("refusal {number}\n");
                assert!(facts(&path).starts_with(&start));
                met[number as usize] += 1;
            }
        }
    }
    assert!(met[3..].iter().all(|&n| n > 0), "{met:?}");
}
