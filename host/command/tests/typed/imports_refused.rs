//! Texts that are cut, entries that do not come after the last one, and the line on which a bad one starts.
use crate::banks::{entry, imported, other, tray, with_length};
use crate::person::{append, bytes, checked, file, folder, made, BOOT};
use crate::tray::{planned, results, MONOTONIC, REALTIME};

/// The text is cut at every byte of its last entry: what is whole is appended, the rest is not taken.
#[test]
fn cut_texts() {
    let folder = folder("import-cut");
    let first = tray(&results(0, 1)).concat();
    let last = [
        &other("TRAY=7\n\n", b"")[..],
        &with_length(b"TRAY", b"7\n"),
        b"\n",
    ]
    .concat();
    let text = [&first[..], &last].concat();
    let path = made(&folder, "one.journal", "65536");
    let new = bytes(&path);
    let one = planned(&new, 1, &results(0, 1)).after;
    for end in first.len() + 1..text.len() {
        file(&folder, "one.journal", &new);
        let said = imported(&path, &text[..end], &["--sync=end"]);
        let start = format!(
            "journal: {}: entry 2 of the text, line 8: the ",
            path.display()
        );
        assert!(said.err.starts_with(&start), "{end} {}", said.err);
        let middle = "; the entry before it is appended, and nothing from there on (refusal 23: ";
        assert!(said.err.contains(middle), "{}", said.err);
        assert!(said.status == Some(4) && bytes(&path) == one, "{end}");
    }
    imported(&path, &last, &["--sync=end"]).done();
}

/// Newlines in values count as lines: what is behind the bad entry starts where it is said to.
#[test]
fn lines_in_values() {
    let folder = folder("import-lines");
    let path = made(&folder, "one.journal", "65536");
    let good = entry(REALTIME, MONOTONIC, BOOT, &[b"NOTE=\n\n\nA"]);
    let text = [&good[..], b"\n\n", &good, b"bad=\n\n"].concat();
    let said = imported(&path, &text, &[]);
    let lines = text.split_inclusive(|&byte| byte == b'\n').skip(20);
    assert!(
        said.err.contains(": entry 3 of the text, line 21: "),
        "{}",
        said.err
    );
    assert!(lines.eq([&b"bad=\n"[..], b"\n"]));
}

/// 17: an entry that does not come after the one before it. The clock of a boot does not fall; that of the wall may.
#[test]
fn out_of_order() {
    let folder = folder("import-order");
    let path = made(&folder, "one.journal", "65536");
    append(&path, 5, &["A=1"]).done();
    let at = |realtime, monotonic| entry(realtime, monotonic, BOOT, &[b"A=1"]);
    let text = [at(9, 55), at(8, 56), at(7, 55), at(6, 60)].concat();
    let said = imported(&path, &text, &[]);
    let start = format!(
        "journal: {}: entry 3 of the text, line 11: its monotonic time is 55, and the entry before it in \
         the file, of the same boot, has 56; the 2 entries before it are appended, and nothing from \
         there on (refusal 17: ",
        path.display()
    );
    assert!(said.err.starts_with(&start), "{}", said.err);
    assert!(
        said.out
            .starts_with("appended 2 entries, 6 to 7, in 1 batch, "),
        "{}",
        said.out
    );
    assert_eq!(
        (said.status, &*checked(&path)),
        (Some(4), "opens, 3 entries\n")
    );
    // The number that is typed is that of the first entry.
    let words = imported(&path, &at(6, 60), &["--seqnum=7"]).failed_with(&path);
    let start =
        "entry 1 of the text, line 1: --seqnum 7: the last entry has sequence number 7, and the \
                 new one needs a higher one; nothing is appended (refusal 17: ";
    assert!(words.starts_with(start), "{words}");
    let greatest = format!("--seqnum={}", u64::MAX);
    let said = imported(&path, &[at(6, 60), at(6, 60)].concat(), &[&greatest]);
    let words = "entry 2 of the text, line 6: the last entry has the greatest sequence number that there is";
    assert!(said.err.contains(words), "{}", said.err);
    assert_eq!(checked(&path), "opens, 4 entries\n");
}
