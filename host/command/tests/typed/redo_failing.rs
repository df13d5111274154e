//! A batch with a sync that fails, in each way.
use crate::cut::preloaded;
use crate::person::{bytes, checked, folder, made, program};
use crate::redo::{second_tray, told};
use crate::tray::{batch, beside, lines, results};

/// A sync that fails. Of a redo list, before the first store, nothing is left; behind the stores it stays.
#[test]
fn failing() {
    let (path, before, tray, planned) = second_tray("redo-failing");
    let redo = beside(&path);
    let error = "Input/output error (os error 5)";
    for n in 1..=4 {
        std::fs::write(&path, &before).expect("a file");
        let said = told(&path, &tray, "redo", "FAIL_AT", n).failed(1);
        let expected = match n {
            1 | 2 => format!(
                "{}: {error}: no redo list can be made there (--sync places does without)",
                redo.display()
            ),
            3 => format!(
                "{}: the sync behind the stores failed: {error}; {} stays, and the next append carries \
                 it out again",
                path.display(),
                redo.display()
            ),
            _ => format!(
                "{}: can't be removed: {error}; its entries are on the disk",
                redo.display()
            ),
        };
        assert_eq!(said, expected);
        let image = if n < 3 { &before } else { &planned.after };
        assert!(bytes(&path) == *image, "at sync {n}");
        assert_eq!(redo.exists(), n == 3);
        let _ = std::fs::remove_file(&redo);
    }
    for (n, words) in [
        (1, ""),
        (5, "; of its 5 entries some may be on the disk"),
        (6, "; of its 5 entries the first 1 are on the disk"),
        (
            10,
            "; of its 5 entries the first 1 are on the disk, and the next may be",
        ),
        (26, "; of its 5 entries the first 5 are on the disk"),
    ] {
        std::fs::write(&path, &before).expect("a file");
        let said = told(&path, &tray, "places", "FAIL_AT", n).failed_with(&path);
        let expected = format!("sync {n} of 26 failed: {error}; the append stops there{words}");
        assert_eq!(said, expected);
    }
    std::fs::write(&path, &before).expect("a file");
    let said = told(&path, &tray, "end", "FAIL_AT", 1).failed_with(&path);
    let words = "the append stops there; of its 5 entries some may be on the disk";
    assert_eq!(said, format!("sync 1 of 1 failed: {error}; {words}"));
}

/// A second batch that fails says that the first is appended.
#[test]
fn failing_later() {
    let path = made(&folder("redo-later"), "one.journal", "65536");
    let mut command = program();
    preloaded(&mut command, "FAIL_AT", 5);
    let text = lines(&results(0, 40));
    let said = batch(&mut command, &path, 1, text.as_bytes(), &[]);
    assert_eq!(said.out.lines().count(), 1);
    let end = "; 32 entries of the lines before line 33 are appended\n";
    assert!(said.err.ends_with(end), "{}", said.err);
    assert_eq!(checked(&path), "opens, 32 entries\n");
    assert!(!beside(&path).exists());
}
