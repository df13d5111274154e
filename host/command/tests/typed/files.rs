//! Files that are none, or not to be read, and lengths at the edges.
use crate::in_full::{everyone, facts, in_full};
use crate::person::{append, asked, bytes, checked, file, folder, made, program, said};
use reading::layout::MOST_BYTES;
use std::fs::{File, Permissions};
use std::os::unix::fs::{MetadataExt, PermissionsExt};
use std::os::unix::process::CommandExt;
use std::path::Path;
use std::process::Command;

/// What `list`, `check`, `why`, `foreign` and `append` say; it is the same.
fn all_say(path: &Path) -> String {
    let words = asked("list", path).failed_with(path);
    assert_eq!(asked("check", path).failed_with(path), words);
    assert_eq!(asked("why", path).failed_with(path), words);
    assert_eq!(asked("foreign", path).failed_with(path), words);
    assert_eq!(append(path, 1, &["A=1"]).failed_with(path), words);
    words
}

#[test]
fn what_is_no_file() {
    let folder = folder("none");
    let missing = folder.join("missing.journal");
    assert_eq!(all_say(&missing), "there is no such file or folder");
    assert!(!missing.exists());
    assert_eq!(all_say(&folder), "is a folder");
    let below = file(&folder, "a.journal", b"").join("b.journal");
    assert_eq!(all_say(&below), "a part of its path is no folder");

    let pipe = folder.join("pipe");
    let status = Command::new("mkfifo").arg(&pipe).status();
    assert!(status.expect("mkfifo is there").success());
    assert_eq!(all_say(&pipe), "is no ordinary file");
}

#[test]
fn lengths() {
    let folder = folder("lengths");
    let empty = file(&folder, "empty.journal", b"");
    assert_eq!(everyone(&empty).number, 1);
    let zeros = file(&folder, "zeros.journal", &[0; 256]);
    assert_eq!(everyone(&zeros).number, 3);

    let longest = made(&folder, "longest.journal", &MOST_BYTES.to_string());
    assert_eq!(checked(&longest), "opens, 0 entries\n");
    let too_long = |length: u64| {
        let file = File::options().write(true).open(&longest);
        file.and_then(|file| file.set_len(length))
            .expect("a length");
        let full = in_full(&longest);
        assert_eq!(full.number, 2);
        let line = format!("{} (refusal 2: {})", full.sentence, full.rule);
        assert_eq!(asked("list", &longest).failed_with(&longest), line);
        assert!(facts(&longest).starts_with("refusal 2\n"));
    };
    too_long(MOST_BYTES + 1);
    too_long(1 << 40);
}

/// A name is shown on one line, whatever is in it.
#[test]
fn a_name_with_a_newline() {
    let path = folder("name").join("a\nb\u{1b}[1m.journal");
    let words = asked("list", &path).failed(1);
    assert!(words.ends_with("/a\\x0ab\\x1b[1m.journal: there is no such file or folder"));
}

/// Somebody who may not read a file, read it only, or not write to a folder.
#[test]
fn no_permission() {
    // The system's own folder: somebody else may have no way into the one of this package.
    let folder = std::env::temp_dir().join(format!("typed-{}", std::process::id()));
    std::fs::create_dir(&folder).expect("a folder");
    let tool = folder.join("journal");
    std::fs::copy(env!("CARGO_BIN_EXE_journal"), &tool).expect("a copy of the program");
    let path = made(&folder, "closed.journal", "4096");
    let before = bytes(&path);
    let as_somebody = |words: &[&str], path: &Path| {
        let mut command = Command::new(&tool);
        if std::fs::metadata(&folder).expect("it is there").uid() == 0 {
            command.uid(65_534).gid(65_534);
        }
        said(command.arg(words[0]).arg(path).args(&words[1..]))
    };
    let allow = |path: &Path, mode: u32| {
        std::fs::set_permissions(path, Permissions::from_mode(mode)).expect("it is ours");
    };

    allow(&folder, 0o555);
    allow(&path, 0o000);
    let refused = "no permission";
    assert_eq!(as_somebody(&["list"], &path).failed_with(&path), refused);
    allow(&path, 0o444);
    let opened = as_somebody(&["check"], &path).done();
    assert!(opened.starts_with("opens, 0 entries\n"), "{opened}");
    let said = as_somebody(&["append", "A=1"], &path);
    assert_eq!(said.failed_with(&path), refused);
    assert_eq!(bytes(&path), before);
    let other = folder.join("other.journal");
    assert_eq!(as_somebody(&["new"], &other).failed_with(&other), refused);
    assert!(!other.exists());

    allow(&folder, 0o755);
    std::fs::remove_dir_all(&folder).expect("it is ours");
}

/// An image that comes through standard input by its name is an ordinary file as well.
#[test]
fn by_another_name() {
    let path = made(&folder("other-name"), "one.journal", "4096");
    let input = File::open(&path).expect("it is there");
    let answer = said(program().args(["check", "/dev/stdin"]).stdin(input));
    assert!(answer.done().starts_with("opens, 0 entries\n"));
}
