//! `--plain`: what is typed with it beside what was typed without.
use crate::person::{bytes, program, said, Said};
use reading::plain::refusal;
use std::ffi::OsStr;
use std::path::Path;

/// The commands that have it.
pub const COMMANDS: [&str; 3] = ["list", "find", "values"];

/// A file of more bytes would take too long where all of it is asked for.
const LONG: u64 = 1 << 20;

/// `journal --plain NAME FILE WORDS`.
pub fn plainly<I: AsRef<OsStr>>(name: &str, file: &Path, words: &[I]) -> Said {
    let mut command = program();
    said(command.args(["--plain", name]).arg(file).args(words))
}

/// A command without `--plain` and with it.
pub fn both<I: AsRef<OsStr>>(name: &str, file: &Path, words: &[I]) -> [Said; 2] {
    let without = said(program().arg(name).arg(file).args(words));
    [without, plainly(name, file, words)]
}

/// Whatever one of its commands printed of one file it prints with `--plain` too, byte for byte; but it
/// is refused where 14 applies to the file.
pub fn set_against<I: AsRef<OsStr>>(name: &str, file: &Path, words: &[I], without: &Said) {
    let printed = COMMANDS.contains(&name) && without.status == Some(0);
    let length = || std::fs::metadata(file).expect("it was read").len();
    if !printed || length() > LONG {
        return;
    }
    let with = plainly(name, file, words);
    if with.status == Some(2) {
        let line = with.failed(2);
        assert!(line.starts_with("--plain reads one file, and not two"));
        return;
    }
    let number = match with.status {
        Some(0) => 0,
        _ => 14,
    };
    match number {
        0 => assert_eq!(with, *without, "{name} {}", file.display()),
        _ => only_14(with, file),
    }
    // Where a redo list stands beside a file, what is read is not what is in it.
    if !redo_of(file).exists() {
        assert_eq!(refusal(&bytes(file)), number, "{}", file.display());
    }
}

fn redo_of(file: &Path) -> std::path::PathBuf {
    let mut path = file.canonicalize().expect("it was read").into_os_string();
    path.push(".redo");
    path.into()
}

/// It was refused by 14: status 3, with what can be done.
pub fn only_14(with: Said, file: &Path) {
    let expected = format!(
        "{}: the file's counters or indexes do not agree with its entries, as after an append that was \
         cut off, and the plain reader takes no such file: read it without --plain (refusal 14: a header \
         counter (n_entries counts every ENTRY), head or tail fact or cell tail disagrees with the \
         objects (",
        file.display()
    );
    let line = with.failed(3);
    assert!(line.starts_with(&expected), "{line}");
}
