//! The one condition of a refusal that applies, and the argument that it is about: 15, 16 and 20.
use crate::person::{append, folder, made, options, typed, MACHINE};
use std::path::{Path, PathBuf};

/// A file whose last entry has number 5.
pub fn five(name: &str) -> PathBuf {
    let path = made(&folder(name), "one.journal", "65536");
    append(&path, 5, &["A=1"]).done();
    path
}

/// The sentence before the rule.
pub fn why(path: &Path, words: &[String], number: u64) -> String {
    let said = typed("append", path, words).failed_with(path);
    let (sentence, rule) = said.split_once(" (refusal ").expect("a rule");
    assert!(rule.starts_with(&format!("{number}: ")), "{said}");
    sentence.to_string()
}

#[test]
fn machine() {
    let path = five("why-machine");
    let other = "f".repeat(32);
    let words = ["--machine", &other, "A=1"].map(str::to_string);
    let expected = format!("--machine {other}: the file belongs to machine {MACHINE}");
    assert_eq!(why(&path, &words, 15), expected);
    let own = std::fs::read_to_string("/etc/machine-id").expect("the system has an id");
    let expected = format!(
        "the file belongs to machine {MACHINE}, and this is machine {}: append to it there, or say \
         by --machine that it is meant",
        own.trim_end()
    );
    assert_eq!(why(&path, &["A=1".to_string()], 15), expected);
}

#[test]
fn fields() {
    let path = five("why-fields");
    let sentence = |fields: &[String]| why(&path, &[options(6), fields.to_vec()].concat(), 16);
    let name = "N".repeat(65);
    let long = format!("A={}", "x".repeat(4_095));
    let wrong = [
        (
            "a=1",
            "a=1: its name has 'a', and only A-Z, 0-9 and _ are taken",
        ),
        (
            "LOT 7=x",
            "LOT 7=x: its name has ' ', and only A-Z, 0-9 and _ are taken",
        ),
        (
            "GRÖSSE=1",
            "GRÖSSE=1: its name has 'Ö', and only A-Z, 0-9 and _ are taken",
        ),
        (
            "A\n=1",
            "A\\x0a=1: its name has '\\x0a', and only A-Z, 0-9 and _ are taken",
        ),
        ("LOT", "LOT: it has no =, a field is NAME=VALUE"),
        ("", "which is empty: it has no =, a field is NAME=VALUE"),
        ("=1", "=1: it has no name before the ="),
        ("1A=1", "1A=1: a name does not start with a digit"),
        (
            &format!("{name}=1"),
            &format!("{}..: its name has 65 bytes, and 64 are taken", &name[..40]),
        ),
        (
            &long,
            &format!("{}..: it has 4097 bytes, and 4096 are taken", &long[..40]),
        ),
    ];
    for (field, expected) in wrong {
        let fields = ["B=1", field, "a"].map(str::to_string);
        assert_eq!(sentence(&fields), format!("field 2, {expected}"));
    }
    let many = vec!["A=1".to_string(); 65];
    let expected = "65 fields are given: an entry takes 64, and repeats count";
    assert_eq!(sentence(&many), expected);
}

#[test]
fn new_files() {
    let path = folder("why-new").join("new.journal");
    let wrong: [(&[&str], &str); 10] = [
        (&["--size", "65537"], "--size 65537: it is no multiple of 8"),
        (
            &["--size", "8388616"],
            "--size 8388616: a file has at most 8M, 8388608 bytes",
        ),
        (
            &["--data-cells", "0"],
            "--data-cells 0: a file has 1 to 65536 of them",
        ),
        (
            &["--data-cells", "65537"],
            "--data-cells 65537: a file has 1 to 65536 of them",
        ),
        (
            &["--field-cells", "0"],
            "--field-cells 0: a file has 1 to 1024 of them",
        ),
        (
            &["--size", "312", "--data-cells", "1", "--field-cells", "1"],
            "--size 312: 1 data cell and 1 field cell need 320 bytes, without an entry",
        ),
        (
            &["--size", "4K", "--data-cells", "300"],
            "--size 4096: 300 data cells and 1 field cell need 5104 bytes, without an entry",
        ),
        (
            &["--header-size", "264"],
            "--header-size 264: a file is made with 256 or 272",
        ),
        (
            &["--size", "8", "--header-size", "18446744073709551615"],
            "--header-size 18446744073709551615: a file is made with 256 or 272",
        ),
        (
            &["--size", "328", "--header-size", "272"],
            "--size 328: 1 data cell and 1 field cell need 336 bytes, without an entry",
        ),
    ];
    for (words, expected) in wrong {
        let said = typed("new", &path, words).failed_with(&path);
        let (sentence, rule) = said.split_once(" (refusal 20: ").expect("a rule");
        assert_eq!(sentence, expected);
        assert!(
            rule.starts_with("length a multiple of 8, at most "),
            "{said}"
        );
    }
}
