//! A batch that is ended at each of its syncs, in each way, and the redo list that it leaves: what was
//! begun is finished by the next command.
use crate::cut::preloaded;
use crate::person::{append, asked, bytes, checked, file, folder, made, program, typed, Said};
use crate::tray::{appended, batch, beside, lines, planned, redo_list, results, Planned};
use reading::carry::carry_out;
use std::path::{Path, PathBuf};

/// A file with a tray in it, the next tray, and what that does.
pub fn second_tray(name: &str) -> (PathBuf, Vec<u8>, Vec<Vec<String>>, Planned) {
    let path = made(&folder(name), "one.journal", "65536");
    appended(&path, 1, &results(0, 3), &[]).done();
    let before = bytes(&path);
    let results = results(2, 5);
    let planned = planned(&before, 4, &results);
    (path, before, results, planned)
}

/// The second tray, with `cut.c` told one thing.
pub fn told(path: &Path, tray: &[Vec<String>], way: &str, name: &str, number: usize) -> Said {
    let mut command = program();
    preloaded(&mut command, name, number);
    let words = ["--sync", way];
    batch(&mut command, path, 4, lines(tray).as_bytes(), &words)
}

/// An image with the first stores of a list.
fn up_to(image: &[u8], list: &[u8], count: usize) -> Vec<u8> {
    let mut image = image.to_vec();
    assert_eq!(carry_out(&mut image, list, count as u64), 0);
    image
}

/// With a redo list: before its syncs nothing is stored, then all. The list is the one of the page, and
/// whoever comes next reads the finished file, or makes it.
#[test]
fn ended_with_a_redo_list() {
    let (path, before, tray, planned) = second_tray("redo-ended");
    let list = redo_list(&before, &planned.list);
    let whole = file(path.parent().expect("a folder"), "whole", &planned.after);
    let listed = asked("list", &whole).done();
    for n in 1..=4 {
        std::fs::write(&path, &before).expect("a file");
        let ended = told(&path, &tray, "redo", "KILL_AT", n);
        assert_eq!((ended.status, &*ended.out, &*ended.err), (None, "", ""));
        let image = if n < 3 { &before } else { &planned.after };
        assert!(bytes(&path) == *image, "at sync {n}");
        assert_eq!(asked("list", &path).done(), listed);
        if n == 4 {
            assert!(!beside(&path).exists());
            continue;
        }
        assert!(bytes(&beside(&path)) == list, "at sync {n}");
        let text = append(&path, 9, &["A=1"]).done();
        let start = format!(
            "carried {} out and removed it, {} stores, 4 syncs\nappended entry 9, ",
            beside(&path).display(),
            planned.list.len() / 16
        );
        assert!(text.starts_with(&start), "{text}");
        assert!(!beside(&path).exists());
        assert_eq!(checked(&path), "opens, 9 entries\n");
        let kept = typed("find", &path, &["--seqnum=8", "-o", "json"]).done();
        let meant = typed("find", &whole, &["--seqnum=8", "-o", "json"]).done();
        assert_eq!(kept, meant);
    }
    std::fs::write(&path, &before).expect("a file");
    let text = told(&path, &tray, "redo", "KILL_AT", 5).done();
    assert!(text.ends_with(" stores, 4 syncs\n"), "{text}");
}

/// A list that is being carried out again, ended at each sync: before the first store the list and its
/// name are on the disk, and the list goes last.
#[test]
fn ended_again() {
    let (path, before, _, planned) = second_tray("redo-again");
    let list = redo_list(&before, &planned.list);
    // Some of the stores are in the file.
    let begun = up_to(&before, &planned.list, planned.list.len() / 32);
    for n in 1..=4 {
        std::fs::write(&path, &begun).expect("a file");
        std::fs::write(beside(&path), &list).expect("a file");
        let mut command = program();
        preloaded(&mut command, "KILL_AT", n);
        let ended = batch(&mut command, &path, 9, b"", &[]);
        assert_eq!((ended.status, &*ended.out), (None, ""));
        let image = if n < 3 { &begun } else { &planned.after };
        assert!(bytes(&path) == *image, "at sync {n}");
        assert_eq!(beside(&path).exists(), n < 4);
        appended(&path, 9, &[], &[]).done();
        assert!(bytes(&path) == planned.after && !beside(&path).exists());
    }
}

/// With a sync at each place the file has the stores up to there. With one at the end it has them all.
#[test]
fn ended_without_one() {
    let (path, before, tray, planned) = second_tray("redo-without");
    let end = [planned.list.len() / 16];
    for (way, points) in [("places", &planned.points[..]), ("end", &end)] {
        for (&point, n) in points.iter().zip(1..) {
            std::fs::write(&path, &before).expect("a file");
            assert_eq!(told(&path, &tray, way, "KILL_AT", n).status, None);
            assert!(
                bytes(&path) == up_to(&before, &planned.list, point),
                "{way} {n}"
            );
            assert!(!beside(&path).exists());
            let commits = planned.list[..16 * point].chunks_exact(16);
            let commits = commits
                .filter(|store| store[..8] == 152u64.to_le_bytes())
                .count();
            assert_eq!(checked(&path), format!("opens, {} entries\n", 3 + commits));
        }
    }
    assert_eq!(planned.points.len(), 5 * 5 + 1);
}
