//! What `export` does not print: nothing is left out silently.
use crate::banks::{appended, entry};
use crate::person::{append, bytes, file, folder, made, program, said};
use checks::generator::draft::{array_of, numbered, Data, Draft, Field, Item, Part};
use checks::generator::render::render;
use checks::random::Random;
use std::fs::File;

/// Three entries of the boot 0, with times from 1 on: one has a payload that no append would take.
fn with(payload: &[u8]) -> Vec<u8> {
    let name = payload.split(|&byte| byte == b'=').next().expect("a name");
    let data = |payload: &[u8], first: usize, chain: Option<usize>, count: u64| {
        Part::Data(Data {
            payload: payload.to_vec(),
            chained: Some(0),
            listed: true,
            entry_offset: Item::Entry(first),
            entry_array: chain,
            n_entries: count,
        })
    };
    let field = |name: &[u8]| {
        Part::Field(Field {
            name: name.to_vec(),
            chained: Some(0),
            heads: true,
        })
    };
    let mut parts = vec![
        data(b"A=1", 6, Some(5), 3),
        field(b"A"),
        data(payload, 8, None, 1),
        field(name),
        array_of(None, 0..3, |place| Item::Entry(6 + place)),
        array_of(None, 1..3, |place| Item::Entry(6 + place)),
    ];
    parts.extend(numbered(3, [0; 16], &[0]));
    if let Part::Entry(last) = &mut parts[8] {
        last.items.push(2);
    }
    let draft = Draft {
        committed: vec![6, 7, 8],
        entry_array: Some(4),
        ..Draft::of(parts)
    };
    render(&draft, &mut Random::new(1)).image
}

/// Those before it are written, it is named, and the status is that of an entry that is refused.
#[test]
fn a_field_that_is_not_taken() {
    let folder = folder("export-fields");
    let long = [b"LONG=".to_vec(), vec![b'x'; 4_092]].concat();
    for (payload, why) in [
        (
            &b"lot=7"[..],
            "field 2, lot=7: its name has 'l', and only A-Z, 0-9 and _ are taken",
        ),
        (&b"7=x"[..], "field 2, 7=x: a name does not start with a digit"),
        (
            &long,
            "field 2, LONG=xxxxxxxxxxxxxxxxxxxxxxxxxxxxxxxxxxx..: it has 4097 bytes, and 4096 are taken",
        ),
    ] {
        let path = file(&folder, "one.journal", &with(payload));
        let said = said(program().arg("export").arg(&path));
        assert_eq!(said.status, Some(4), "{}", said.err);
        let zero = "0".repeat(32);
        let two = [entry(1, 1, &zero, &[b"A=1"]), entry(2, 2, &zero, &[b"A=1"])];
        assert_eq!(said.out.as_bytes(), two.concat());
        let start = format!(
            "journal: {}: entry 3 can't be exported: {why}; the 2 entries before it are written, and \
             nothing from there on (refusal 16: ",
            path.display()
        );
        assert!(said.err.starts_with(&start), "{}", said.err);
    }
    // Of a name that is kept for stamps the rest goes out.
    let path = file(&folder, "one.journal", &with(b"__lot=7"));
    assert_eq!(
        said(program().arg("export").arg(&path))
            .done()
            .lines()
            .count(),
        15
    );
}

/// What could not be written is not said to be.
#[test]
fn to_a_full_disk() {
    let path = file(&folder("export-full"), "one.journal", &with(b"lot=7"));
    let full = File::options().write(true).open("/dev/full");
    let full = full.expect("it is there");
    let words = said(program().arg("export").arg(&path).stdout(full)).failed(1);
    assert_eq!(words, "the answer can't be written: no room on the disk");
}

/// It is of the second file, and so is the message.
#[test]
fn no_field_that_goes_out() {
    let folder = folder("export-none");
    let [one, two] = ["one.journal", "two.journal"].map(|name| made(&folder, name, "4096"));
    append(&one, 1, &["A=1"]).done();
    append(&two, 2, &["__A=1", "_BOOT_ID=1"]).done();
    append(&one, 3, &["A=1"]).done();
    let words = "it has no field but such as are not exported, _BOOT_ID and those with __ in front";
    for (files, before, out) in [
        (&[&two][..], "nothing is written", Vec::new()),
        (
            &[&one, &two],
            "the entry before it is written, and nothing from there on",
            appended(1, &[b"A=1"]),
        ),
    ] {
        let said = said(program().arg("export").args(files));
        let start = format!(
            "journal: {}: entry 2 can't be exported: {words}; {before} (refusal 16: ",
            two.display()
        );
        assert!(said.err.starts_with(&start), "{}", said.err);
        assert_eq!((said.status, said.out.as_bytes()), (Some(4), &out[..]));
    }
}

#[test]
fn files_that_are_refused() {
    let folder = folder("export-files");
    let path = made(&folder, "one.journal", "4096");
    let damaged = file(&folder, "damaged.journal", &bytes(&path)[..4_000]);
    for files in [&[&damaged][..], &[&path, &damaged], &[&damaged, &path]] {
        let said = said(program().arg("export").args(files));
        assert_eq!(said.refused(&damaged), 5);
    }
    let absent = folder.join("absent.journal");
    let words = said(program().arg("export").arg(&absent)).failed_with(&absent);
    assert_eq!(words, "there is no such file or folder");
}
