//! `import`: the entries of a text, against the independent reading byte for byte, and there and back.
use crate::banks::{entry, exported, imported, tray, with_length};
use crate::person::{asked, bytes, checked, file, folder, made, program, typed, BOOT};
use crate::tray::{batch, beside, planned, results, MONOTONIC, REALTIME};
use checks::corpus;
use std::path::Path;

/// One batch, two, and many; in each way the bytes are those of the entries appended one by one.
#[test]
fn as_the_reading_has_it() {
    let folder = folder("import");
    let new = bytes(&made(&folder, "new.journal", "262144"));
    for count in [1, 2, 32, 33, 100] {
        let results = results(0, count);
        let expected = planned(&new, 1, &results).after;
        for words in [
            &["--sync=redo"][..],
            &["--sync=places"],
            &["--sync=end"],
            &[],
        ] {
            let path = file(&folder, "one.journal", &new);
            imported(&path, &tray(&results).concat(), words).done();
            assert!(bytes(&path) == expected, "{count} {words:?}");
            assert!(!beside(&path).exists());
        }
    }
}

/// It says what it did once, and the numbers go on from the last or from the one given.
#[test]
fn numbers() {
    let folder = folder("import-numbers");
    let path = made(&folder, "one.journal", "262144");
    let text = tray(&results(0, 40)).concat();
    let before = bytes(&path);
    let first = planned(&before, 1, &results(0, 32));
    let second = planned(&first.after, 33, &results(32, 8));
    let stores = (first.list.len() + second.list.len()) / 16;
    let said = imported(&path, &text, &[]).done();
    let costs = format!("in 2 batches, {stores} stores, 8 syncs");
    assert_eq!(said, format!("appended 40 entries, 1 to 40, {costs}\n"));
    let said = imported(&path, &tray(&results(0, 1))[0], &[]).done();
    assert!(
        said.starts_with("appended entry 41, in 1 batch, "),
        "{said}"
    );
    let said = imported(&path, &text, &["--seqnum=1000"]).done();
    assert!(
        said.starts_with("appended 40 entries, 1000 to 1039, in 2 "),
        "{said}"
    );
    let from = file(&folder, "text", &text);
    let from = ["--quiet", "--from", from.to_str().expect("text")];
    assert_eq!(imported(&path, b"this is not read", &from).done(), "");
    assert_eq!(checked(&path), "opens, 121 entries\n");
    let last = typed("show", &path, &["last"]).done();
    assert!(last.starts_with("seqnum     1079\n"), "{last}");
}

/// No entry is none, also with empty lines.
#[test]
fn nothing() {
    let path = made(&folder("import-none"), "one.journal", "4096");
    let before = bytes(&path);
    for text in ["", "\n", "\n\n\n"] {
        let said = imported(&path, text.as_bytes(), &[]).done();
        assert_eq!(said, "appended 0 entries in 0 batches, 0 stores, 0 syncs\n");
    }
    assert!(bytes(&path) == before);
}

/// What other programs write: lines that are passed over, stamps at any place, either form, empty lines between.
#[test]
fn as_others_write_it() {
    let path = made(&folder("import-others"), "one.journal", "65536");
    let stamps =
        "_BOOT_ID=000102030405060708090a0b0c0d0e0f\n__REALTIME_TIMESTAMP=00000000000000000007\n";
    let parts: [&[u8]; 10] = [
        b"\n\n__CURSOR=s=1;i=2\n__SEQNUM=9\n__SEQNUM_ID=no id\nNOTE=5 \xc2\xb0C\r\x00\xff\n",
        stamps.as_bytes(),
        &with_length(b"LOT", b"12"),
        &with_length(b"__LONG", &[b'\n'; 5_000]),
        &with_length(b"__MONOTONIC_TIMESTAMP", b"18446744073709551615"),
        &with_length(b"NOTE", b"\n\nLOT=13\n\n"),
        b"EMPTY=\nLOT=12=13\n\n\n",
        &entry(8, 9, BOOT, &[b"LOT=14"]),
        b"\n",
        &entry(
            6,
            0,
            "00000000-0000-0000-0000-000000000000",
            &[b"LOT=15", b"LOT=15"],
        ),
    ];
    let said = imported(&path, &parts.concat(), &[]).done();
    assert!(
        said.starts_with("appended 3 entries, 1 to 3, in 1 batch, "),
        "{said}"
    );
    let expected = "\
seqnum     1
local time 1970-01-01 00:00:00.000007 +0000
realtime   7
monotonic  18446744073709551615
boot id    000102030405060708090a0b0c0d0e0f
fields     5
  NOTE=5 °C\\x0d\\x00\\xff
  LOT=12
  NOTE=\\x0a\\x0aLOT=13\\x0a\\x0a
  EMPTY=
  LOT=12=13
";
    assert_eq!(typed("show", &path, &["1"]).done(), expected);
    let last = typed("show", &path, &["3"]).done();
    assert!(last.contains("monotonic  0\nboot id    0000"), "{last}");
    assert!(last.ends_with("fields     1\n  LOT=15\n"), "{last}");
}

/// What went out comes back: a new file lists it alike, and exports it alike.
fn there_and_back(folder: &Path, path: &Path, seqnum: &str) {
    let text = exported(&[path]);
    let back = made(folder, "back.journal", "1M");
    imported(&back, &text, &[&format!("--seqnum={seqnum}"), "--sync=end"]).done();
    assert!(exported(&[&back]) == text, "{}", path.display());
    for form in ["table", "json"] {
        let words = ["-o", form];
        let listed = typed("list", &back, &words).done();
        assert_eq!(listed, typed("list", path, &words).done());
    }
    std::fs::remove_file(back).expect("it was made");
}

#[test]
fn our_own_files() {
    let folder = folder("import-back");
    let path = made(&folder, "one.journal", "262144");
    let lines = (0..=255).map(|n| format!("A=\\x{n:02x}\\x{:02x}\tB={n}\tC=\n", 255 - n));
    let lines = String::from_iter(lines);
    batch(&mut program(), &path, 100, lines.as_bytes(), &[]).done();
    there_and_back(&folder, &path, "100");
    assert!(exported(&[&path]).starts_with(&entry(
        REALTIME,
        MONOTONIC,
        BOOT,
        &[b"A=\x00\xff", b"B=0", b"C="]
    )));
}

/// Those that journald wrote, with sequence numbers from 1 on and `_BOOT_ID` among the fields.
#[test]
fn files_of_journald() {
    let folder = folder("import-corpus");
    for (name, number) in corpus::FILES {
        if number == 0 {
            let text = exported(&[&corpus::path(name)]);
            let back = made(&folder, "back.journal", "1M");
            imported(&back, &text, &[]).done();
            assert!(exported(&[&back]) == text, "{name}");
            let count = |path: &Path| asked("list", path).done().lines().count();
            assert_eq!(count(&back), count(&corpus::path(name)));
            std::fs::remove_file(back).expect("it was made");
        }
    }
}
