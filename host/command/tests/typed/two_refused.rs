//! What is said of two files where one of them can't be read.
use crate::person::{asked, bytes, file, folder};
use crate::two::{both, of_two};
use checks::corpus;
use std::fs::File;
use std::path::PathBuf;

/// What every command says.
fn all_say(files: &[PathBuf; 2]) -> String {
    let words = of_two("list", files, &[]).failed_so();
    for (name, others) in [
        ("show", &["1"][..]),
        ("find", &["--seqnum", "1"]),
        ("find", &["--time", "1"]),
        ("find", &["--field", "A=1"]),
        ("values", &["A"]),
        ("newest", &["A"]),
        ("show", &["last"]),
    ] {
        assert_eq!(of_two(name, files, others).failed_so(), words);
    }
    words
}

/// The first file's refusal, else the second's, with the name of the file: 4 of a file that may be
/// compressed, and 5 of one that was cut short.
#[test]
fn refused() {
    let folder = folder("two-refused");
    let good = corpus::path("bullseye-k1-c0-online");
    let four = file(&folder, "compressed.journal", &corpus::compressed());
    let whole = bytes(&good);
    let five = file(&folder, "cut.journal", &whole[..whole.len() - 8]);
    for (first, second, of) in [
        (&five, &good, &five),
        (&good, &five, &five),
        (&good, &four, &four),
        (&five, &four, &five),
        (&four, &five, &four),
    ] {
        let words = all_say(&[first.clone(), second.clone()]);
        assert_eq!(words, asked("list", of).failed(3));
    }
    let missing = folder.join("missing.journal");
    let words = format!("{}: there is no such file or folder", missing.display());
    assert_eq!(all_say(&[missing.clone(), good.clone()]), words);
    assert_eq!(all_say(&[good, missing]), words);
}

/// The second file's lock is looked at too.
#[test]
fn locked() {
    let files = both(&folder("two-locked"), 4);
    let other = File::options().read(true).write(true).open(&files[1]);
    let other = other.expect("it is there");
    other.lock().expect("the lock is free");
    let words = of_two("list", &files, &[]).failed_with(&files[1]);
    assert_eq!(words, "another program appends to it");
}
