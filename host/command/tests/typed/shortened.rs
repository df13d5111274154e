//! A file that another program cuts short during an append: it is said, and the program does not
//! just end by a signal.
use crate::cut::{course, told};
use crate::person::{bytes, file, folder};

/// Before the first store, after each sync, and after the last.
#[test]
fn at_every_sync() {
    let folder = folder("shortened");
    let (before, _) = course(&folder);
    for n in 0..=6 {
        let path = file(&folder, "short.journal", &before);
        let words = told(&path, "SHORTEN_AT", n).failed_with(&path);
        let expected = "another program cut it short, and the append stops there";
        assert_eq!(words, expected, "at sync {n}");
        assert_eq!(bytes(&path), b"", "at sync {n}");
    }
}
