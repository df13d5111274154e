//! 1 to 5 and 7: "the place is 0, the header".
use super::sample::{drawn, sample, Form, A1, FIELD_A};
use super::{changed, Case};
use reading::layout::{header, kind, MOST_BYTES};

pub fn cases(form: Form) -> Vec<Case> {
    let made = drawn(&sample(form));
    let image = &made.image;
    let word = |at: u64, value: u64| changed(&made, |it| it.set(at, value));
    let byte = |at: u64, value: u8| changed(&made, |it| it.set_byte(at, value));
    let tail = |at: u64| word(header::TAIL_OBJECT_OFFSET, at);
    let second = made.data_table.max(made.field_table);
    let mut cases = vec![
        ("255 bytes", 1, image[..255].to_vec()),
        ("no bytes", 1, Vec::new()),
        ("another signature", 3, byte(7, 0)),
        ("incompatible bit 3", 4, byte(12, image[12] | 8)),
        ("header_size 248", 5, word(header::HEADER_SIZE, 248)),
        ("arena_size 2^64 - 8", 5, word(header::ARENA_SIZE, !7)),
        (
            "the last byte missing",
            5,
            image[..image.len() - 1].to_vec(),
        ),
        ("one object", 7, tail(form.1)),
        (
            "two tables of a kind",
            7,
            byte(second, image[form.1 as usize]),
        ),
        (
            "a table's offset",
            7,
            word(header::DATA_HASH_TABLE_OFFSET, form.1),
        ),
        ("a table's size", 7, word(header::FIELD_HASH_TABLE_SIZE, 32)),
    ];
    // The FIELD becomes a later table: "for 1 to 5 and 7 the place is 0".
    let later = changed(&made, |it| {
        let at = it.offsets[FIELD_A];
        it.set_byte(at, kind::FIELD_HASH_TABLE);
        it.set(at + 8, 48);
    });
    cases.push(("a later table", 7, later));
    // Whatever else is wrong in it.
    let beside = changed(&made, |it| {
        it.set_byte(0, 0);
        it.set(it.offsets[A1] + 8, 0);
    });
    cases.push(("another signature, and a size", 3, beside));
    if form.1 == 256 {
        let mut long = image.clone();
        long.resize(MOST_BYTES as usize + 1, 0);
        cases.push(("8,388,609 bytes", 2, long));
    }
    cases
        .into_iter()
        .map(|(what, number, image)| Case::new(what, &image, number, 0))
        .collect()
}
