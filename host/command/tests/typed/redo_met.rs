//! Redo lists that commands meet: whole ones beside any state of the file, and some that are cut short.
use crate::person::{append, asked, bytes, checked, file, folder, made, program, said, typed};
use crate::tray::{appended, beside, planned, redo_list, results, Planned};
use checks::random::Random;
use std::path::{Path, PathBuf};

/// A file with some results, and a tray more.
pub fn begun(name: &str) -> (PathBuf, Vec<u8>, Planned) {
    let path = made(&folder(name), "one.journal", "16384");
    appended(&path, 1, &results(0, 3), &[]).done();
    let before = bytes(&path);
    let planned = planned(&before, 4, &results(2, 6));
    (path, before, planned)
}

pub fn put(path: &Path, image: &[u8], list: &[u8]) {
    std::fs::write(path, image).expect("a file");
    std::fs::write(beside(path), list).expect("a file");
}

/// What every command that reads says of a file, in order.
fn readings(path: &Path) -> Vec<String> {
    let all: [&[&str]; 8] = [
        &["list", "-o", "json"],
        &["show", "last"],
        &["find", "--seqnum", "7"],
        &["find", "--field", "STATE=dead"],
        &["newest", "LOT"],
        &["values", "LOT"],
        &["foreign"],
        &["check"],
    ];
    let mut texts = Vec::new();
    for words in all {
        let said = said(program().arg(words[0]).arg(path).args(&words[1..]));
        texts.push(said.done());
    }
    texts
}

/// Any stores of the list, in any order: whoever reads shows the finished file and changes nothing, a copy
/// is the finished file, and whoever appends finishes it first.
#[test]
fn beside_any_state() {
    let (path, before, planned) = begun("redo-any");
    let list = redo_list(&before, &planned.list);
    let whole = file(
        path.parent().expect("a folder"),
        "whole.journal",
        &planned.after,
    );
    let meant = readings(&whole);
    let copy = path.with_extension("copy");
    for seed in 0..30 {
        let mut random = Random::new(seed);
        let mut image = before.clone();
        let stores: Vec<&[u8]> = planned.list.chunks_exact(16).collect();
        for _ in 0..random.below(2 * stores.len()) {
            let store = stores[random.below(stores.len())];
            let at = u64::from_le_bytes(store[..8].try_into().expect("8 bytes")) as usize;
            image[at..at + 8].copy_from_slice(&store[8..]);
        }
        put(&path, &image, &list);
        let mut shown = readings(&path);
        let check = shown.pop().expect("the last");
        assert_eq!(shown, meant[..7], "{seed}");
        let words =
            "holds a batch that was cut off; all of it is in what is said here, and the next \
                     append carries it out";
        let line = format!("redo list: {} {words}\n", beside(&path).display());
        assert_eq!(check, format!("{}{line}", meant[7]));
        typed("copy", &path, &[&copy]).done();
        assert!(bytes(&copy) == planned.after);
        std::fs::remove_file(&copy).expect("it is there");
        assert!(bytes(&path) == image && bytes(&beside(&path)) == list);

        let text = append(&path, 10, &["A=1"]).done();
        assert!(
            text.starts_with("carried ") && text.lines().count() == 2,
            "{text}"
        );
        assert!(!beside(&path).exists());
        let mut expected = planned.after.clone();
        expected = crate::expected::expected(&expected, 10, &[b"A=1"]).0;
        assert!(bytes(&path) == expected, "{seed}");
    }
}

/// Both of two files.
#[test]
fn of_two_files() {
    let (path, before, planned) = begun("redo-two");
    put(&path, &before, &redo_list(&before, &planned.list));
    let whole = file(
        path.parent().expect("a folder"),
        "whole.journal",
        &planned.after,
    );
    let listed = |first: &Path, second: &Path| typed("list", first, &[second]).done();
    assert_eq!(listed(&path, &path), listed(&whole, &whole));
    assert_eq!(listed(&whole, &path), listed(&whole, &whole));
}

/// A list that is cut at any byte, has one too many or a wrong one was never begun.
#[test]
fn cut_short() {
    let (path, before, _) = begun("redo-short");
    let one = planned(&before, 4, &[vec!["TRAY=7".to_string()]]);
    let list = redo_list(&before, &one.list);
    let check = asked("check", &path).done();
    let words =
        "is cut short, so that none of it was carried out; it is passed over, and the next append \
                 removes it";
    let line = format!("redo list: {} {words}\n", beside(&path).display());
    let mut random = Random::new(1);
    let passed_over = |broken: &[u8]| {
        put(&path, &before, broken);
        assert_eq!(asked("check", &path).done(), format!("{check}{line}"));
        assert!(bytes(&beside(&path)) == broken);
    };
    for end in 0..list.len() {
        passed_over(&list[..end]);
    }
    passed_over(&[&list[..], b"x"].concat());
    for _ in 0..60 {
        let mut broken = list.clone();
        let at = random.below(list.len());
        broken[at] ^= 1 << random.below(8);
        passed_over(&broken);
    }
    let text = append(&path, 10, &["A=1"]).done();
    let start = format!(
        "removed {}, which was cut short, so that none of it was carried out, 1 sync\nappended entry 10",
        beside(&path).display()
    );
    assert!(text.starts_with(&start), "{text}");
    assert!(!beside(&path).exists());
    assert_eq!(checked(&path), "opens, 4 entries\n");
}
