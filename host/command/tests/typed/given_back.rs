//! What is printed can be given back: `find --field` reads it.
use crate::expected::expected;
use crate::person::{append, bytes, file, folder, made, options, program, said, typed, Said};
use std::ffi::{OsStr, OsString};
use std::os::unix::ffi::{OsStrExt, OsStringExt};
use std::path::{Path, PathBuf};
use std::process::Command;

/// Values that are hard to give back.
const VALUES: [&[u8]; 18] = [
    b"12",
    b"a\\b",
    b"\\",
    b"\\\\",
    b"\\x41",
    b"\\n",
    b"two\nlines",
    b"\n",
    b"tab\there",
    "no\u{a0}break".as_bytes(),
    "turned \u{202e} around".as_bytes(),
    b"\"quoted\" 'twice' $HOME `ls` *",
    b"\xff\xfe no UTF-8",
    b" before and after ",
    b"",
    b"-n",
    b"a=b",
    "Grüße".as_bytes(),
];

/// A file with an entry for each, numbered from 1.
fn lots(name: &str) -> PathBuf {
    let path = made(&folder(name), "lots.journal", "65536");
    for (value, seqnum) in VALUES.iter().zip(1..) {
        let field = OsString::from_vec([b"LOT=", *value].concat());
        let mut command = program();
        command.arg("append").arg(&path).args(options(seqnum));
        said(command.arg(field)).done();
    }
    path
}

/// In a shell, with the program as `$0` and the file as `$1`.
fn in_a_shell(script: &str, path: &Path) -> String {
    let output = Command::new("sh")
        .args(["-c", script, env!("CARGO_BIN_EXE_journal")])
        .arg(path)
        .env("TZ", "UTC0")
        .output();
    Said::from(output.expect("sh is there")).done()
}

/// The sequence numbers of lines.
fn seqnums(text: &str) -> Vec<usize> {
    let first = |line: &str| line.split_whitespace().next().map(str::parse);
    let numbers = text.lines().map(first);
    numbers
        .map(|it| it.expect("a word").expect("a number"))
        .collect()
}

/// A loop over the values finds every lot, each once.
#[test]
fn a_loop_over_values() {
    let path = lots("loop-values");
    let script = r#"
        "$0" values "$1" LOT | while IFS= read -r lot; do
            "$0" find "$1" --field "LOT=$lot" --no-header
        done"#;
    let falling: Vec<usize> = (1..=VALUES.len()).rev().collect();
    assert_eq!(seqnums(&in_a_shell(script, &path)), falling);
}

/// And so do the fields that `show` prints, and the last column of `newest`.
#[test]
fn from_an_entry_to_those_like_it() {
    let path = lots("loop-show");
    let script = r#"
        for number in $("$0" list "$1" --no-header | awk '{ print $1 }'); do
            "$0" show "$1" "$number" | sed -n 's/^  //p' | while IFS= read -r field; do
                "$0" find "$1" --field "$field" --no-header
            done
        done"#;
    let rising: Vec<usize> = (1..=VALUES.len()).collect();
    assert_eq!(seqnums(&in_a_shell(script, &path)), rising);
    let script = r#"
        "$0" newest "$1" LOT -o tsv --no-header | cut -f 4 | while IFS= read -r lot; do
            "$0" find "$1" --field "LOT=$lot" --no-header
        done"#;
    let falling: Vec<usize> = rising.into_iter().rev().collect();
    assert_eq!(seqnums(&in_a_shell(script, &path)), falling);
}

/// Bytes may be typed as they are too, but for the backslash; digits are of either case.
#[test]
fn typed_in_other_ways() {
    let path = lots("typed-ways");
    let found = |field: &[u8]| {
        let mut command = program();
        command.args(["find", "--no-header", "--field"]);
        let text = said(command.arg(OsStr::from_bytes(field)).arg(&path)).done();
        seqnums(&text)
    };
    assert_eq!(found(b"LOT=two\nlines"), [7]);
    assert_eq!(found(b"LOT=two\\x0Alines"), [7]);
    assert_eq!(found(b"LOT=\xff\xfe no UTF-8"), [13]);
    assert_eq!(found(b"LOT=\\xFF\\xfe no UTF-8"), [13]);
    assert_eq!(found(b"L\\x4fT\\x3d12"), [1]);
    assert_eq!(found(b"LOT=\\\\x41"), [5]);
    // The byte 0 can't be typed as it is.
    let (image, _) = expected(&bytes(&path), 19, &[b"LOT=\0"]);
    let path = file(path.parent().expect("a folder"), "zero.journal", &image);
    let text = typed("find", &path, &["--field", "LOT=\\x00", "--no-header"]).done();
    assert_eq!(seqnums(&text), [19]);
}

/// Any other backslash is refused, and not taken for one thing or the other.
#[test]
fn a_lone_backslash() {
    let path = made(&folder("lone"), "one.journal", "4096");
    append(&path, 1, &["A=a\\b"]).done();
    let field = |value: &str| typed("find", &path, &["--field", value]);
    let words = "a backslash is typed as \\\\ and a byte as \\xNN, as they are printed";
    assert_eq!(
        field("A=a\\b").failed(2),
        format!("--field A=a\\\\b: {words} (--help tells more)")
    );
    for value in [
        "A=\\", "A=\\\\\\", "A=\\x", "A=\\x4", "A=\\x4g", "A=\\xg4", "A=\\X41", "A=\\x+1",
    ] {
        let line = field(value).failed(2);
        assert!(line.contains(words), "{line}");
    }
    field("A=a\\\\b").done();
    let none = field("A=a\\\\\\\\b").failed_with(&path);
    assert_eq!(none, "no entry with A=a\\\\\\\\b");
}
