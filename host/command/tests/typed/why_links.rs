//! The sentence on a file whose links, order or lists are wrong, word for word: 8 to 10.
use crate::why_damaged::Example;
use checks::generator::frame::set;
use reading::layout::{array, data, entry, field, header};

/// 8.
#[test]
fn links() {
    let example = Example::new("why-links");
    let searches = "searches could miss results or find wrong ones";
    let list = "its header has the list of entries in a wrong place";
    let at = header::ENTRY_ARRAY_OFFSET;
    example.word(
        (at, 584),
        8,
        "the header",
        list,
        "its entries can't be found",
    );
    let leads = |object: &str| format!("{object} leads to a wrong place");
    let table = leads("the hash table of the field values at offset 256");
    example.word(
        (272, 408),
        8,
        "offset 256, DATA_HASH_TABLE",
        &table,
        searches,
    );
    let table = leads("the hash table of the field names at offset 288");
    example.word(
        (304, 320),
        8,
        "offset 288, FIELD_HASH_TABLE",
        &table,
        searches,
    );
    let value = leads("the field value at offset 320 (MESSAGE=lot 12 due)");
    example.word(
        (320 + data::NEXT_HASH_OFFSET, 320),
        8,
        "offset 320, DATA",
        &value,
        searches,
    );
    let name = leads("the field name at offset 536 (PRIORITY)");
    example.word(
        (536 + field::HEAD_DATA_OFFSET, 8),
        8,
        "offset 536, FIELD",
        &name,
        searches,
    );
    let array = leads("the entry array at offset 680");
    let missing = "entries could be missing";
    example.word(
        (680 + array::NEXT_ENTRY_ARRAY_OFFSET, 680),
        8,
        "offset 680, ENTRY_ARRAY",
        &array,
        missing,
    );
    let entry =
        "the entry at offset 736 (sequence number 9223372036854775808) has a field that is not \
                 there, or has its fields twice or out of order";
    let fields = "fields of this entry could be missing or wrong";
    example.word(
        (736 + entry::ITEMS, 408),
        8,
        "offset 736, ENTRY",
        entry,
        fields,
    );
}

/// 9.
#[test]
fn order() {
    let example = Example::new("why-order");
    let (first, second) = ("entry number 1 of the file", "entry number 2 of the file");
    let missing = "results could be missing";
    let none = format!("its header counts 2 entries, and the list of them ends before {first}");
    example.word((header::ENTRY_ARRAY_OFFSET, 0), 9, first, &none, missing);
    let third = "entry number 3 of the file";
    let zero = format!("{third} is not where the list of entries has it");
    example.word((header::N_ENTRIES, 9), 9, third, &zero, missing);
    let value = format!("{second} is not where the list of entries has it");
    example.word((680 + array::ITEMS + 8, 456), 9, second, &value, missing);

    let so_that = "the order of its results can't be trusted";
    let none = format!("{first} has sequence number 0, and the first number is 1");
    example.word((584 + entry::SEQNUM, 0), 9, first, &none, so_that);
    let seqnum =
        format!("{second} has sequence number 5, and the one before it has 9223372036854775807");
    example.word((736 + entry::SEQNUM, 5), 9, second, &seqnum, so_that);
    let monotonic = format!(
        "{second} has the monotonic time 49, and the one before it, of the same boot, has 50"
    );
    example.word((736 + entry::MONOTONIC, 49), 9, second, &monotonic, so_that);
    let turned = |image: &mut [u8]| {
        set(image, 680 + array::ITEMS, 736);
        set(image, 680 + array::ITEMS + 8, 584);
    };
    let place = format!("{second} stands at offset 584, and the one before it at 736");
    example.told(turned, 9, second, &place, so_that);
    let twice = format!("{second} stands at offset 584, and the one before it at 584");
    example.word((680 + array::ITEMS + 8, 584), 9, second, &twice, so_that);
}

/// 10.
#[test]
fn lists() {
    let example = Example::new("why-lists");
    let what = "the list of the entries with the field value at offset 456 (PRIORITY=2) is wrong";
    let so_that = "searches could miss results or find wrong ones";
    example.word(
        (456 + data::N_ENTRIES, 1),
        10,
        "offset 456, DATA",
        what,
        so_that,
    );
}
