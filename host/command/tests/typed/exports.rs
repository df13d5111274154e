//! `export`: the entries of one file and of two, byte for byte.
use crate::banks::{appended, entry, exported};
use crate::person::{append, folder, made, program, typed, BOOT};
use crate::tray::{batch, MONOTONIC, REALTIME};
use crate::two::both;

/// A value of tabs and printing ASCII is a line, also an empty one; any other has its length before it. What comes
/// twice in an entry is one field of it.
#[test]
fn one_file() {
    let path = made(&folder("export-one"), "one.journal", "65536");
    assert_eq!(exported(&[&path]), b"");
    let entries: [&[&str]; 3] = [
        &["LOT=12", "NOTE=a\tb=~ ", "EMPTY="],
        &["NOTE=5 °C", "NOTE=two\nlines", "LOT=12", "LOT=12"],
        &["NOTE=\u{7f}"],
    ];
    let mut expected = Vec::new();
    for (fields, seqnum) in entries.iter().zip(5..) {
        append(&path, seqnum, fields).done();
        let mut payloads = Vec::from_iter(fields.iter().map(|field| field.as_bytes()));
        payloads.dedup();
        // An entry has its items by rising offset, and LOT came with the first one.
        if seqnum == 6 {
            payloads.rotate_right(1);
        }
        expected.extend(appended(seqnum, &payloads));
    }
    assert_eq!(exported(&[&path]), expected);
    assert!(expected
        .windows(13)
        .any(|it| it == b"NOTE\n\x05\0\0\0\0\0\0\0"));
}

/// Every byte that a value may have.
#[test]
fn any_bytes() {
    let path = made(&folder("export-bytes"), "one.journal", "262144");
    let lines = (0..=255).map(|byte| format!("A=\\x{byte:02x}\n"));
    let lines = String::from_iter(lines);
    batch(&mut program(), &path, 1, lines.as_bytes(), &[]).done();
    let entries = (0..=255).map(|byte| entry(REALTIME, MONOTONIC, BOOT, &[&[b'A', b'=', byte]]));
    assert_eq!(exported(&[&path]), Vec::from_iter(entries).concat());
}

/// The stream: each entry once, in its order; also of files that are numbered under two ids.
#[test]
fn two_files() {
    let sown = appended(1, &[b"STATE=sown"]);
    let wet = appended(2, &[b"STATE=wet"]);
    let counted = appended(3, &[b"STATE=wet", b"MESSAGE=counted"]);
    let dead = appended(5, &[b"STATE=dead"]);
    let lost = appended(7, &[b"STATE=lost"]);
    let files = both(&folder("export-two"), 4);
    let [one, two] = files.each_ref().map(|file| file.as_path());
    let stream = [&sown, &wet, &counted, &dead, &lost];
    assert_eq!(exported(&[one, two]), stream.map(|it| &it[..]).concat());
    assert_eq!(exported(&[two]), [&wet[..], &counted, &lost].concat());
    let files = both(&folder("export-two-ids"), 9);
    let [one, two] = files.each_ref().map(|file| file.as_path());
    let stream = [&sown, &wet, &counted, &counted, &dead, &lost];
    assert_eq!(exported(&[one, two]), stream.map(|it| &it[..]).concat());
}

/// Names that are kept for stamps do not go out with an entry's fields.
#[test]
fn names_that_stay() {
    let path = made(&folder("export-names"), "one.journal", "65536");
    let fields = ["__CURSOR=x", "_BOOT_ID=mine", "_BOOT_IDS=1", "_X=2", "__=3"];
    append(&path, 1, &fields).done();
    assert_eq!(exported(&[&path]), appended(1, &[b"_BOOT_IDS=1", b"_X=2"]));
    let shown = typed("show", &path, &["1"]).done();
    assert!(shown.contains("\n  __CURSOR=x\n"), "{shown}");
}
