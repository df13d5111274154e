//! `-n`, `--reverse`, `--since`, `--until`, several `--field`, and `show FILE last`.
use crate::person::{append, asked, folder, made, typed, Said};
use crate::two::{both, of_two};
use std::path::PathBuf;

/// Sequence numbers 1 to 6, at as many microseconds; even lots are wet.
fn six(name: &str) -> PathBuf {
    let path = made(&folder(name), "one.journal", "65536");
    for seqnum in 1..=6 {
        let state = ["STATE=wet", "STATE=dry"][seqnum as usize % 2];
        append(&path, seqnum, &[state, &format!("ROW={}", seqnum / 4)]).done();
    }
    path
}

/// The sequence numbers of a table without its heading; of two files after the file.
fn rows(said: Said) -> Vec<String> {
    let text = said.done();
    let until_time = |line: &str| {
        line.split("2023")
            .next()
            .expect("a start")
            .trim()
            .to_string()
    };
    text.lines().map(until_time).collect()
}

#[test]
fn of_a_list() {
    let path = six("selected");
    let listed = |words: &[&str]| rows(typed("list", &path, &[words, &["--no-header"]].concat()));
    assert_eq!(listed(&["-n", "2"]), ["5", "6"]);
    assert_eq!(listed(&["-n2", "--reverse"]), ["6", "5"]);
    assert_eq!(listed(&["-n", "7"]), ["1", "2", "3", "4", "5", "6"]);
    assert_eq!(listed(&["-n", "18446744073709551615"]).len(), 6);
    assert_eq!(listed(&["--reverse"]), ["6", "5", "4", "3", "2", "1"]);
    assert!(listed(&["-n", "0"]).is_empty());
    // Both ends belong to the span.
    let [two, four] = ["2023-11-14 22:13:20.000002", "2023-11-14T22:13:20.000004Z"];
    assert_eq!(listed(&["--since", four]), ["4", "5", "6"]);
    assert_eq!(listed(&["--until", two]), ["1", "2"]);
    assert_eq!(listed(&["--since", two, "--until", four]), ["2", "3", "4"]);
    assert_eq!(listed(&["--since", two, "--until", four, "-n1"]), ["4"]);
    assert_eq!(listed(&["--since", two, "--until", two]), ["2"]);
    assert!(listed(&["--since", "now"]).is_empty());
    // An empty list has its heading, and is no failure.
    let none = typed("list", &path, &["--until", "2023-11-14"]).done();
    assert_eq!(none.lines().count(), 1);
}

/// All of several fields have to be there.
#[test]
fn by_several_fields() {
    let path = six("several-fields");
    let found = |words: &[&str]| rows(typed("find", &path, &[words, &["--no-header"]].concat()));
    assert_eq!(
        found(&["--field", "STATE=wet", "--field", "ROW=1"]),
        ["4", "6"]
    );
    assert_eq!(found(&["--field", "ROW=1", "--field=STATE=dry"]), ["5"]);
    assert_eq!(found(&["--field", "STATE=wet", "-n", "1"]), ["6"]);
    assert_eq!(
        found(&["--field", "STATE=wet", "--reverse"]),
        ["6", "4", "2"]
    );
    let since = "1700000000000003";
    assert_eq!(
        found(&["--field", "STATE=wet", "--since", since]),
        ["4", "6"]
    );
    let none = |words: &[&str]| typed("find", &path, words).failed_with(&path);
    assert_eq!(
        none(&["--field", "STATE=wet", "--field", "STATE=dry"]),
        "no entry with STATE=wet and STATE=dry"
    );
    assert_eq!(
        none(&["--field", "STATE=wet", "--until", "1700000000000001"]),
        "no entry with STATE=wet until 2023-11-14 22:13:20.000001 +0000 (1700000000000001)"
    );
}

#[test]
fn of_two_files() {
    let files = both(&folder("two-selected"), 4);
    let listed = |name: &str, words: &[&str]| {
        rows(of_two(name, &files, &[words, &["--no-header"]].concat()))
    };
    assert_eq!(
        listed("list", &["-n", "3"]),
        ["1       3", "1       5", "2       7"]
    );
    assert_eq!(listed("list", &["-n1", "--reverse"]), ["2       7"]);
    let span = ["--since", "1700000000000002", "--until", "1700000000000003"];
    assert_eq!(listed("list", &span), ["2       2", "1       3"]);
    let wet = ["--field", "STATE=wet", "--field", "MESSAGE=counted"];
    assert_eq!(listed("find", &wet), ["1       3"]);
    let last = of_two("show", &files, &["last"]).done();
    assert_eq!(last, of_two("show", &files, &["7"]).done());
}

#[test]
fn the_last() {
    let path = six("last");
    let last = typed("show", &path, &["last"]).done();
    assert!(last.starts_with("seqnum     6\n"), "{last}");
    assert_eq!(last, typed("show", &path, &["6"]).done());
    let empty = made(&folder("last-none"), "one.journal", "4096");
    assert_eq!(
        typed("show", &empty, &["last"]).failed_with(&empty),
        "no entry"
    );
    let both = of_two("show", &[empty.clone(), empty.clone()], &["last"]).failed(1);
    assert!(both.ends_with(": no entry"), "{both}");
    assert_eq!(asked("list", &empty).done().lines().count(), 1);
}

#[test]
fn typed_wrongly() {
    let path = six("selected-wrong");
    let line = |name: &str, words: &[&str]| typed(name, &path, words).failed(2);
    for (name, words, start) in [
        ("list", &["-n", "two"][..], "-n two: no number"),
        ("list", &["-n", "-1"], "-n -1: no number"),
        ("list", &["-n=2"], "-n =2: no number"),
        ("list", &["-n"], "-n needs a value"),
        ("list", &["--reverse=1"], "--reverse has no value"),
        ("list", &["--since", "soon"], "--since soon: no time: "),
        (
            "list",
            &["--since", "2", "--until", "1"],
            "--since is later than --until",
        ),
        ("list", &["--field", "A=1"], "no option --field"),
        (
            "find",
            &["--seqnum", "1", "-n", "2"],
            "-n goes with --field",
        ),
        (
            "find",
            &["--time", "1", "--until", "2"],
            "--until goes with --field",
        ),
        (
            "find",
            &["--field", "A=1", "--seqnum", "1"],
            "the command is find ",
        ),
        ("find", &["--since", "1"], "the command is find "),
        ("show", &["last", "--reverse"], "no option --reverse"),
        ("show", &["Last"], "SEQNUM Last: no number"),
    ] {
        let line = line(name, words);
        assert!(line.starts_with(start), "{name} {words:?}: {line}");
    }
}
