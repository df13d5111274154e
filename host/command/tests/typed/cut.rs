//! An append that is ended at each of its syncs, one whose sync fails, one on a full disk, and one to a
//! file that another program writes at the same time.
use crate::expected::{expected, groups, stores};
use crate::person::{
    append, asked, bytes, checked, file, folder, made, options, program, said, Said,
};
use reading::carry::carry_out;
use reading::plan::sync_points;
use std::path::{Path, PathBuf};
use std::process::Command;
use std::sync::OnceLock;

/// The program with `cut.c` before the C library, told one thing.
pub fn preloaded<'a>(command: &'a mut Command, name: &str, number: usize) -> &'a mut Command {
    static BUILT: OnceLock<PathBuf> = OnceLock::new();
    let library = BUILT.get_or_init(|| {
        let library = Path::new(env!("CARGO_TARGET_TMPDIR")).join("cut.so");
        let status = Command::new("cc")
            .args(["-Wall", "-Wextra", "-Werror", "-shared", "-fPIC", "-o"])
            .arg(&library)
            .arg(concat!(env!("CARGO_MANIFEST_DIR"), "/tests/typed/cut.c"))
            .arg("-ldl")
            .status();
        assert!(status.expect("cc is there, as for cargo").success());
        library
    });
    command
        .env("LD_PRELOAD", library)
        .env(name, number.to_string())
}

/// An append of one new and one old field as entry 3, told one thing.
pub fn told(path: &Path, name: &str, number: usize) -> Said {
    let mut command = program();
    preloaded(&mut command, name, number);
    command.arg("append").arg(path).args(options(3));
    said(command.args(["A=1", "B=2"]))
}

/// A file with two entries; the same in the course of the append of a third, at each of its syncs;
/// and after it.
pub fn course(folder: &Path) -> (Vec<u8>, Vec<Vec<u8>>) {
    course_of(&made(folder, "two.journal", "4096"))
}

/// The same of a file that is new.
pub fn course_of(path: &Path) -> (Vec<u8>, Vec<Vec<u8>>) {
    append(path, 1, &["A=1"]).done();
    append(path, 2, &["A=1"]).done();
    let before = bytes(path);
    let fields: [&[u8]; 2] = [b"A=1", b"B=2"];
    let list = stores(&before, 3, &fields);
    let points = sync_points(&groups(&before, 3, &fields));
    let cuts = points.iter().map(|&point| {
        let mut image = before.clone();
        assert_eq!(carry_out(&mut image, &list, point as u64), 0);
        image
    });
    let cuts = cuts.collect();
    (before, cuts)
}

/// Ended at its n-th sync, the file has the stores up to there and no others. It opens, it
/// lists as before or after, and it takes no append but where only the last sync was missing.
#[test]
fn ended_at_every_sync() {
    let folder = folder("cut");
    let (before, cuts) = course(&folder);
    assert_eq!(cuts.len(), 6);
    let listed = |image: &[u8], name: &str| asked("list", &file(&folder, name, image)).done();
    let (old, new) = (listed(&before, "old"), listed(&cuts[5], "new"));
    assert_eq!((old.lines().count(), new.lines().count()), (3, 4));
    for (cut, n) in cuts.iter().zip(1..) {
        let path = file(&folder, "cut.journal", &before);
        let ended = told(&path, "KILL_AT", n);
        assert_eq!((ended.status, &*ended.out, &*ended.err), (None, "", ""));
        assert!(bytes(&path) == *cut, "at sync {n}");
        let (text, count) = if n < 5 { (&old, 2) } else { (&new, 3) };
        assert_eq!(checked(&path), format!("opens, {count} entries\n"));
        assert_eq!(asked("list", &path).done(), *text, "at sync {n}");
        match n {
            6 => drop(append(&path, 4, &["A=1"]).done()),
            _ => {
                let words = append(&path, 4, &["A=1"]).failed_with(&path);
                let expected =
                    "the file is in use, or an append to it was cut off: it can be read, \
                                append to a new file (refusal 13: state not 0 (offline))";
                assert_eq!(words, expected);
                assert!(bytes(&path) == *cut);
            }
        }
    }
    // There is no seventh.
    let path = file(&folder, "cut.journal", &before);
    assert!(told(&path, "KILL_AT", 7).done().ends_with(", 6 syncs\n"));
    assert!(bytes(&path) == cuts[5]);
}

/// Where a sync fails, nothing more is stored.
#[test]
fn failing_at_every_sync() {
    let folder = folder("fail");
    let (before, cuts) = course(&folder);
    for (cut, n) in cuts.iter().zip(1..) {
        let path = file(&folder, "fail.journal", &before);
        let words = told(&path, "FAIL_AT", n).failed_with(&path);
        let start = format!("sync {n} of 6 failed: Input/output error");
        assert!(words.starts_with(&start), "{words}");
        let end = match n {
            5 => "; the append stops there; the entry may be on the disk or not",
            6 => "; the append stops there; the entry is on the disk",
            _ => "; the append stops there",
        };
        assert!(words.ends_with(end), "{words}");
        assert!(bytes(&path) == *cut, "at sync {n}");
    }
}

/// Where the spare items hold the coming offset already, group 4 is empty and has no sync.
#[test]
fn five_syncs() {
    let folder = folder("five");
    let (mut before, _) = course(&folder);
    let links = groups(&before, 3, &[b"A=1"]).swap_remove(3);
    assert_eq!(links.len(), 2);
    for store in links {
        before[store.offset as usize..][..8].copy_from_slice(&store.value.to_le_bytes());
    }
    let path = file(&folder, "five.journal", &before);
    let failing_at = |n: usize| {
        let mut command = program();
        preloaded(&mut command, "FAIL_AT", n);
        command.arg("append").arg(&path).args(options(3));
        said(command.arg("A=1"))
    };
    let words = failing_at(4).failed_with(&path);
    assert!(words.starts_with("sync 4 of 5 failed: "), "{words}");
    assert!(words.ends_with("on the disk or not"), "{words}");
    file(&folder, "five.journal", &before);
    assert!(failing_at(6).done().ends_with(", 5 syncs\n"));
    assert!(bytes(&path) == expected(&before, 3, &[b"A=1"]).0);
}

#[test]
fn a_full_disk() {
    let folder = folder("full-disk");
    let (before, _) = course(&folder);
    let path = file(&folder, "full.journal", &before);
    let words = told(&path, "FULL", 1).failed_with(&path);
    assert_eq!(words, "no room on the disk");
    assert!(bytes(&path) == before);
}

/// A program that does not go by the lock writes between the reading of the file and the first store.
#[test]
fn written_by_another() {
    let folder = folder("written");
    let (mut before, _) = course(&folder);
    let path = file(&folder, "written.journal", &before);
    let words = told(&path, "WRITE", 1).failed_with(&path);
    assert_eq!(
        words,
        "another program writes it, and does not go by its lock"
    );
    *before.last_mut().expect("it has bytes") = b'x';
    assert!(bytes(&path) == before);
}
