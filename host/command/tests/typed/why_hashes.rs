//! The sentence on a file whose hashes or index are wrong, word for word: 11.
use crate::in_full::{everyone, facts};
use crate::person::{file, folder};
use crate::why_damaged::Example;
use checks::generator::frame::set;
use checks::generator::worked::two_appends;
use reading::image::{id, le64};
use reading::layout::{data, entry, field, header};
use reading::lookup3::hashlittle2;
use reading::siphash::siphash24;

/// 11 with a wrong hash, which is named beside the right one.
#[test]
fn hashes() {
    let example = Example::new("why-hashes");
    let image = two_appends(1);
    let key = id(&image, header::FILE_ID);
    let hex = |hash: u64| format!("{hash:016x}");
    let both = |stored: u64, right: u64| Some([hex(stored), hex(right)]);

    let value = "the field value at offset 320 (MESSAGE=lot 13 due) does not fit its hash";
    let so_that = "this value may not be what was written";
    let change = |image: &mut [u8]| image[320 + 64 + 13] = b'3';
    let full = example.told(change, 11, "offset 320, DATA", value, so_that);
    let stored = le64(&image, 320 + data::HASH);
    assert_eq!(stored, siphash24(&key, b"MESSAGE=lot 12 due"));
    let right = siphash24(&key, b"MESSAGE=lot 13 due");
    assert_eq!(full.hashes, both(stored, right));

    let name = "the field name at offset 408 (MESSAGE) does not fit its hash";
    let so_that = "this name may not be what was written";
    let change = |image: &mut [u8]| set(image, 408 + field::HASH, 7);
    let full = example.told(change, 11, "offset 408, FIELD", name, so_that);
    assert_eq!(full.hashes, both(7, siphash24(&key, b"MESSAGE")));

    let entry =
        "the entry at offset 736 (sequence number 9223372036854775808) does not fit the hashes \
                 of its fields";
    let so_that = "this entry may not be what was written";
    let change = |image: &mut [u8]| set(image, 736 + entry::XOR_HASH, 7);
    let full = example.told(change, 11, "offset 736, ENTRY", entry, so_that);
    assert_eq!(full.hashes, both(7, hashlittle2(b"PRIORITY=2")));
    let change = |image: &mut [u8]| set(image, 736 + entry::ITEMS + 8, 0);
    let full = example.told(change, 11, "offset 736, ENTRY", entry, so_that);
    assert_eq!(full.hashes, both(0, siphash24(&key, b"PRIORITY=2")));
}

/// 11 with right hashes in the object at fault.
#[test]
fn index() {
    let example = Example::new("why-index");
    let searches = "searches could miss results or find wrong ones";
    let what =
        "the index has the field value at offset 320 (MESSAGE=lot 12 due) in a wrong place, \
                twice or not at all";
    let change = |image: &mut [u8]| set(image, 272, 456);
    let full = example.told(change, 11, "offset 320, DATA", what, searches);
    assert_eq!(full.hashes, None);

    let nameless = "the field value at offset 320 (MESSAGE-lot 12 due) has no name before a =";
    let change = |image: &mut [u8]| {
        let key = id(image, header::FILE_ID);
        image[320 + 64 + 7] = b'-';
        set(
            image,
            320 + data::HASH,
            siphash24(&key, b"MESSAGE-lot 12 due"),
        );
    };
    let so_that = "it can't be told which field it is of";
    let full = example.told(change, 11, "offset 320, DATA", nameless, so_that);
    assert_eq!(full.hashes, None);
}

/// What a value holds is shown as everywhere: the start of a long one, and no byte that does not print.
#[test]
fn bytes_of_a_value() {
    let folder = folder("why-bytes");
    let mut image = two_appends(1);
    image[320 + 64 + 8..][..3].copy_from_slice(b"\n\x1b\\");
    let path = file(&folder, "bytes.journal", &image);
    let start =
        "the file is damaged, the field value at offset 320 (MESSAGE=\\x0a\\x1b\\\\ 12 due) does";
    let full = everyone(&path);
    assert!(full.sentence.starts_with(start), "{}", full.sentence);
    assert!(facts(&path).starts_with("refusal 11\nrule a hash, "));
}
