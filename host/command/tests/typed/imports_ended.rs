//! An import that is ended by a signal, or whose sync fails: whole batches are in the file.
use crate::banks::tray;
use crate::cut::preloaded;
use crate::person::{bytes, folder, made, program, Said, MACHINE};
use crate::tray::{beside, planned, results, said_to};
use std::path::Path;

const TERMINATE: usize = 15;

/// An import of forty entries with four syncs a batch, and `cut.c` told one thing.
fn told(path: &Path, name: &str, number: usize) -> Said {
    let mut command = program();
    preloaded(&mut command, name, number).env("SIGNAL", TERMINATE.to_string());
    command.arg("import").arg(path).args(["--machine", MACHINE]);
    said_to(&mut command, &tray(&results(0, 40)).concat())
}

/// The batch at work is finished, and then the signal is obeyed; the last one is also said to be done.
#[test]
fn by_a_signal() {
    let folder = folder("import-signal");
    for n in [1, 4, 5, 8] {
        let path = made(&folder, "one.journal", "65536");
        let count = if n <= 4 { 32 } else { 40 };
        let expected = planned(&bytes(&path), 1, &results(0, count)).after;
        let said = told(&path, "SIGNAL_AT", n);
        assert_eq!((said.status, &*said.err), (None, ""), "{}", said.out);
        assert_eq!(
            said.out.starts_with("appended 40 entries, 1 to 40, "),
            n > 4
        );
        assert!(
            bytes(&path) == expected && !beside(&path).exists(),
            "at sync {n}"
        );
        std::fs::remove_file(path).expect("it was made");
    }
}

/// It is said what is on the disk: the batches before.
#[test]
fn by_a_sync() {
    let folder = folder("import-sync");
    let path = made(&folder, "one.journal", "65536");
    let first = planned(&bytes(&path), 1, &results(0, 32)).after;
    let words = told(&path, "FAIL_AT", 5).failed_with(&beside(&path));
    assert!(
        words.ends_with("; the first 32 entries of the text are appended"),
        "{words}"
    );
    assert!(bytes(&path) == first);
}
