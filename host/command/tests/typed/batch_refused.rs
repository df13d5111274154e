//! Batches that are refused: nothing of the batch is appended, all of those before it is, and the line and
//! the reason are named as for one append.
use crate::person::{append, bytes, checked, file, folder, made, program};
use crate::tray::{appended, batch, beside, lines, planned, results};
use std::path::Path;

const WAYS: [&str; 3] = ["--sync=redo", "--sync=places", "--sync=end"];

/// What one append of these fields is told, without the rule.
fn alone(path: &Path, seqnum: u64, fields: &[&str]) -> String {
    let words = append(path, seqnum, fields).failed_with(path);
    let (sentence, _) = words.split_once(" (refusal ").expect("a rule");
    sentence.to_string()
}

/// 16 in the first and in the second batch, in each way, behind empty lines.
#[test]
fn a_bad_line() {
    let folder = folder("batch-bad");
    let path = made(&folder, "one.journal", "65536");
    let before = bytes(&path);
    let results = results(0, 40);
    let first = planned(&before, 1, &results[..32]).after;
    for (bad, expected) in [
        (
            "lot=7",
            "field 2, lot=7: its name has 'l', and only A-Z, 0-9 and _ are taken",
        ),
        (
            "",
            "field 2, which is empty: it has no =, a field is NAME=VALUE",
        ),
        ("7=7", "field 2, 7=7: a name does not start with a digit"),
    ] {
        assert_eq!(alone(&path, 1, &["A=1", bad]), expected);
        for way in WAYS {
            for (place, after, end, image) in [
                (3, 0, "nothing is appended", &before),
                (
                    36,
                    32,
                    "32 entries of the lines before line 34 are appended, and none from there on",
                    &first,
                ),
            ] {
                file(&folder, "one.journal", &before);
                let mut all = results.clone();
                all.insert(place, vec!["A=1".to_string(), bad.to_string()]);
                // An empty line first.
                let text = format!("\n{}", lines(&all));
                let said = batch(&mut program(), &path, 1, text.as_bytes(), &[way]);
                let (out, status) = (said.out, said.status);
                assert_eq!(status, Some(4), "{}", said.err);
                assert_eq!(out.lines().count(), usize::from(after > 0), "{out}");
                let start = format!(
                    "journal: {}: line {}: {expected}; {end} (refusal 16: ",
                    path.display(),
                    place + 2
                );
                assert!(said.err.starts_with(&start), "{}", said.err);
                assert!(bytes(&path) == *image, "{way} {place}");
                assert!(!beside(&path).exists());
            }
        }
    }
}

/// 17: the first number is the one that was typed; the greatest one is the last.
#[test]
fn numbers() {
    let path = made(&folder("batch-numbers"), "one.journal", "65536");
    appended(&path, 5, &results(0, 1), &[]).done();
    let words = appended(&path, 5, &results(0, 3), &[]).failed_with(&path);
    let start =
        "line 1: --seqnum 5: the last entry has sequence number 5, and the new one needs a higher \
                 one; nothing is appended (refusal 17: ";
    assert!(words.starts_with(start), "{words}");
    let greatest = u64::MAX - 1;
    let words = appended(&path, greatest, &results(0, 3), &[]).failed_with(&path);
    let start =
        "line 3: the last entry has the greatest sequence number that there is: append to a new \
                 file; nothing is appended (refusal 17: ";
    assert!(words.starts_with(start), "{words}");
    appended(&path, greatest, &results(0, 2), &[]).done();
    // A monotonic time below that of the last entry, of the same boot.
    let other = made(&folder("batch-monotonic"), "one.journal", "65536");
    append(&other, 5, &["A=1"]).done();
    let words = appended(&other, 6, &results(0, 3), &[]).failed_with(&other);
    let start =
        "line 1: --monotonic 50: the last entry, of the same boot, has 55; nothing is appended (";
    assert!(words.starts_with(start), "{words}");
    assert_eq!(checked(&other), "opens, 1 entry\n");
}

/// 18: the next file goes on with the first entry of the batch, which has the others still to append.
#[test]
fn a_full_file() {
    let path = made(&folder("batch-full"), "one.journal", "10240");
    let said = appended(&path, 1, &results(0, 100), &[]);
    assert_eq!(said.status, Some(5));
    let (first, full) = (bytes(&path), said.err);
    assert_eq!(checked(&path), "opens, 32 entries\n");
    assert!(full.contains(": the file is full, "), "{full}");
    let id: String = first[72..88]
        .iter()
        .map(|byte| format!("{byte:02x}"))
        .collect();
    let end = format!(
        "made with --seqnum-id {id}, from --seqnum 33 on; 32 entries of the lines before line 33 are \
         appended, and none from there on (refusal 18: "
    );
    assert!(full.contains(&end), "{full}");
    // One by one all lines before the named one fit.
    let line = full.split("line ").nth(1).expect("a line");
    let line: usize = line
        .split(':')
        .next()
        .expect("a number")
        .parse()
        .expect("a number");
    let fit = &results(0, 100)[32..line - 1];
    assert!(!fit.is_empty() && line <= 64, "{full}");
    appended(&path, 33, fit, &[]).done();
    assert!(bytes(&path) == planned(&first, 33, fit).after);
}
