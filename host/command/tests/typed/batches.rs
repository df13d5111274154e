//! `append --batch`: the entries of many lines, against the independent reading byte for byte.
use crate::cut::preloaded;
use crate::person::{asked, bytes, checked, file, folder, made, program, typed, MACHINE};
use crate::tray::{appended, batch, beside, lines, planned, results, said_to};
use std::path::Path;

const WAYS: [&str; 3] = ["--sync=redo", "--sync=places", "--sync=end"];

/// One batch, two, and many; in each way the bytes are those of the entries appended one by one, and so
/// they are if no way is named.
#[test]
fn as_the_reading_has_it() {
    let folder = folder("batch");
    let new = bytes(&made(&folder, "new.journal", "262144"));
    for count in [1, 2, 32, 33, 100] {
        let results = results(0, count);
        let expected = planned(&new, 1, &results).after;
        for words in [&WAYS[..1], &WAYS[1..2], &WAYS[2..], &[]] {
            let path = file(&folder, "one.journal", &new);
            appended(&path, 1, &results, words).done();
            assert!(bytes(&path) == expected, "{count} {words:?}");
            assert!(!beside(&path).exists());
        }
    }
}

/// The second batch goes on from the first; each says what it cost, and then both.
#[test]
fn thirty_three() {
    let folder = folder("batch-33");
    let path = made(&folder, "one.journal", "65536");
    let before = bytes(&path);
    let results = results(0, 33);
    let first = planned(&before, 1, &results[..32]);
    let second = planned(&first.after, 33, &results[32..]);
    let stores = [&first, &second].map(|batch| batch.list.len() / 16);
    let places = [&first, &second].map(|batch| batch.points.len());
    assert_eq!(places, [5 * 32 + 1, 6]);
    for (way, syncs) in [("redo", [4, 4]), ("places", places), ("end", [1, 1])] {
        file(&folder, "one.journal", &before);
        let text = appended(&path, 1, &results, &["--sync", way]).done();
        let time = "2023-11-14 22:13:20.000000 +0000 (1700000000000000)";
        let cost = |stores: usize, syncs: usize| {
            let more = if syncs == 1 { "" } else { "s" };
            format!("{stores} stores, {syncs} sync{more}")
        };
        let expected = format!(
            "appended 32 entries, 1 to 32, {time}, {}\n\
             appended entry 33, {time}, {}\n\
             appended 33 entries in 2 batches, {}\n",
            cost(stores[0], syncs[0]),
            cost(stores[1], syncs[1]),
            cost(stores[0] + stores[1], syncs[0] + syncs[1])
        );
        assert_eq!(text, expected);
        assert_eq!(checked(&path), "opens, 33 entries\n");
        // So many syncs there were, and no other.
        for (n, ends) in [
            (syncs[0] + syncs[1], true),
            (syncs[0] + syncs[1] + 1, false),
        ] {
            file(&folder, "one.journal", &before);
            let mut command = program();
            let command = preloaded(&mut command, "KILL_AT", n);
            let said = batch(
                command,
                &path,
                1,
                lines(&results).as_bytes(),
                &["--sync", way],
            );
            assert_eq!(said.status.is_none(), ends, "{way} {n}");
            let _ = std::fs::remove_file(beside(&path));
        }
    }
}

/// Lines are typed as fields are printed. Empty ones are passed over, the last needs no end, and a text
/// may have its ends from elsewhere.
#[test]
fn how_lines_are_typed() {
    let folder = folder("batch-lines");
    let path = made(&folder, "one.journal", "65536");
    let text = b"\nA=a\\x09b\\x0a\\\\\tB=\xff=\n\r\nA=Gr\xc3\xbc\xc3\x9fe\r\n\n\nA=\\x0d\tA=\tA=";
    let said = batch(&mut program(), &path, 1, text, &[]).done();
    assert!(said.starts_with("appended 3 entries, 1 to 3, "), "{said}");
    let values = typed("values", &path, &["A"]).done();
    assert_eq!(values, "\n\\x0d\nGrüße\na\\x09b\\x0a\\\\\n");
    assert_eq!(typed("values", &path, &["B"]).done(), "\\xff=\n");
    // What is printed can be given back.
    let from = file(
        &folder,
        "lines",
        values
            .lines()
            .map(|it| format!("A={it}\n"))
            .collect::<String>()
            .as_bytes(),
    );
    let from = format!("--from={}", from.display());
    batch(&mut program(), &path, 4, b"X=", &[&from]).done();
    assert_eq!(typed("values", &path, &["A"]).done(), values);
    assert_eq!(checked(&path), "opens, 7 entries\n");
    typed("values", &path, &["X"]).failed(1);
}

/// The present time, this machine and its boot; numbers that go on, from the last or from the one given.
#[test]
fn as_chosen_here() {
    let path = folder("batch-chosen").join("one.journal");
    typed("new", &path, &["--size=262144"]).done();
    let chosen = |words: &[&str]| {
        let mut command = program();
        command.args(["append", "--batch"]).arg(&path).args(words);
        said_to(&mut command, lines(&results(0, 40)).as_bytes())
    };
    for (words, numbers) in [
        (&[][..], ["1 to 32", "33 to 40"]),
        (&[], ["41 to 72", "73 to 80"]),
        (&["--seqnum", "1000"], ["1000 to 1031", "1032 to 1039"]),
    ] {
        let text = chosen(words).done();
        for (line, numbers) in text.lines().zip(numbers) {
            assert!(line.contains(&format!(" entries, {numbers}, 20")), "{text}");
        }
    }
    assert_eq!(chosen(&["--quiet"]).done(), "");
    assert_eq!(checked(&path), "opens, 160 entries\n");
    let last = typed("show", &path, &["last"]).done();
    let boot = std::fs::read_to_string("/proc/sys/kernel/random/boot_id").expect("it is there");
    assert!(last.contains(boot.replace('-', "").trim_end()), "{last}");
}

/// No line is no entry.
#[test]
fn no_lines() {
    let path = made(&folder("batch-none"), "one.journal", "4096");
    let before = bytes(&path);
    for text in ["", "\n", "\n\r\n\n"] {
        let said = batch(&mut program(), &path, 1, text.as_bytes(), &[]).done();
        assert_eq!(said, "appended 0 entries in 0 batches, 0 stores, 0 syncs\n");
    }
    assert!(bytes(&path) == before);
}

/// A batch to a file with a longer header, and to one of another machine.
#[test]
fn other_files() {
    let folder = folder("batch-others");
    let path = folder.join("one.journal");
    let new = ["--size=65536", "--header-size=272", "--machine", MACHINE];
    typed("new", &path, &new).done();
    let before = bytes(&path);
    let results = results(0, 30);
    appended(&path, 1, &results, &[]).done();
    assert!(bytes(&path) == planned(&before, 1, &results).after);
    let other = file(&folder, "other.journal", &before);
    let words = refused_here(&other);
    let start = format!("the file belongs to machine {MACHINE}, and this is machine ");
    assert!(words.starts_with(&start), "{words}");
    assert!(asked("list", &other).done().lines().count() == 1);
}

/// Without the machine's id.
fn refused_here(path: &Path) -> String {
    let mut command = program();
    command.args(["append", "--batch"]).arg(path);
    said_to(&mut command, b"A=1\n").failed_with(path)
}
