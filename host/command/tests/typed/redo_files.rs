//! The file of a redo list: who may read it, where it stands, and what stands in its way; and a batch
//! among other programs and signals.
use crate::cut::preloaded;
use crate::person::{append, asked, bytes, checked, folder, made, program, said, MACHINE};
use crate::tray::{appended, batch, beside, lines, planned, redo_list, results};
use std::fs::{hard_link, metadata, File, Permissions};
use std::os::unix::fs::{symlink, PermissionsExt};
use std::os::unix::process::ExitStatusExt;
use std::process::Stdio;

/// Whoever may read the file may read the list, and nobody else.
#[test]
fn as_open_as_the_file() {
    let path = made(&folder("redo-mode"), "one.journal", "65536");
    let before = bytes(&path);
    for mode in [0o600, 0o640, 0o644, 0o666] {
        std::fs::write(&path, &before).expect("a file");
        std::fs::set_permissions(&path, Permissions::from_mode(mode)).expect("it is ours");
        let mut command = program();
        preloaded(&mut command, "KILL_AT", 3);
        batch(&mut command, &path, 1, b"A=1\n", &[]);
        let list = metadata(beside(&path)).expect("it is there");
        assert_eq!(list.permissions().mode() & 0o777, mode);
        appended(&path, 2, &[], &[]).done();
        assert_eq!(checked(&path), "opens, 1 entry\n");
    }
}

/// A link to a file has the list of the file; a file with several names can't have one.
#[test]
fn links() {
    let folder = folder("redo-links");
    let path = made(&folder, "one.journal", "65536");
    let link = folder.join("link.journal");
    symlink("one.journal", &link).expect("a link");
    let mut command = program();
    preloaded(&mut command, "KILL_AT", 3);
    batch(
        &mut command,
        &link,
        1,
        lines(&results(0, 4)).as_bytes(),
        &[],
    );
    assert!(beside(&path).exists() && !beside(&link).exists());
    for name in [&path, &link] {
        assert_eq!(checked(name), "opens, 4 entries\n");
    }
    appended(&link, 5, &results(0, 1), &[]).done();
    assert!(!beside(&path).exists());

    hard_link(&path, folder.join("second.journal")).expect("a name more");
    let before = bytes(&path);
    let words = appended(&path, 6, &results(0, 1), &[]).failed_with(&path);
    let expected =
        "has 2 names (hard links), and a redo list would be found by one of them alone: give \
                    --sync places";
    assert_eq!(words, expected);
    assert!(bytes(&path) == before);
    appended(&path, 6, &results(0, 1), &["--sync", "places"]).done();
}

/// Beside a file in the present folder; and a folder of this name is no list, and keeps one from being
/// made.
#[test]
fn where_it_stands() {
    let folder = folder("redo-folder");
    let path = made(&folder, "one.journal", "65536");
    let near = |n: usize| {
        let mut command = program();
        preloaded(&mut command, "KILL_AT", n).current_dir(&folder);
        batch(&mut command, "one.journal".as_ref(), 1, b"A=1\n", &[])
    };
    assert_eq!(near(3).status, None);
    assert!(beside(&path).exists());
    appended(&path, 2, &[], &[]).done();
    assert_eq!(checked(&path), "opens, 1 entry\n");

    let before = bytes(&path);
    std::fs::create_dir(beside(&path)).expect("a folder");
    assert_eq!(checked(&path), "opens, 1 entry\n");
    let words = appended(&path, 2, &results(0, 1), &[]).failed_with(&beside(&path));
    let expected =
        "is there already, and is not overwritten: no redo list can be made there (--sync \
                    places does without)";
    assert_eq!(words, expected);
    assert!(bytes(&path) == before);
    append(&path, 2, &["A=1"]).done();
}

/// Who has the lock is waited for, and a redo list is met only then.
#[test]
fn locked() {
    let path = made(&folder("redo-locked"), "one.journal", "65536");
    let before = bytes(&path);
    let list = redo_list(&before, &planned(&before, 1, &results(0, 4)).list);
    let other = File::options().read(true).write(true).open(&path);
    let other = other.expect("it is there");
    other.lock().expect("the lock is free");
    std::fs::write(beside(&path), &list[..100]).expect("a file");
    let words = appended(&path, 1, &results(0, 4), &["--wait", "0"]).failed_with(&path);
    assert_eq!(words, "another program appends to it, or reads it for long");
    let words = said(program().arg("list").arg(&path)).failed_with(&path);
    assert_eq!(words, "another program appends to it");
    assert_eq!(bytes(&beside(&path)), list[..100]);
    std::fs::write(beside(&path), &list).expect("a file");
    other.unlock().expect("it was held");
    assert_eq!(asked("list", &path).done().lines().count(), 5);
}

/// A signal is obeyed once the batch is on the disk and said to be; the next one is not begun.
#[test]
fn a_signal() {
    let path = made(&folder("redo-signal"), "one.journal", "65536");
    let before = bytes(&path);
    let from = path.with_extension("lines");
    std::fs::write(&from, lines(&results(0, 40))).expect("a file");
    for n in 1..=4 {
        std::fs::write(&path, &before).expect("a file");
        let mut command = program();
        preloaded(&mut command, "SIGNAL_AT", n).env("SIGNAL", "15");
        command
            .args(["append", "--batch"])
            .arg(&path)
            .arg("--from")
            .arg(&from);
        command.args(["--machine", MACHINE]);
        command.stdout(Stdio::piped()).stderr(Stdio::piped());
        let output = command.output().expect("it runs");
        assert_eq!(output.status.signal(), Some(15));
        let text = String::from_utf8(output.stdout).expect("text");
        assert!(text.starts_with("appended 32 entries, 1 to 32, "), "{text}");
        assert_eq!(text.lines().count(), 1);
        assert_eq!(checked(&path), "opens, 32 entries\n");
        assert!(!beside(&path).exists());
    }
}
