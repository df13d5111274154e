//! What was done is done, also where it can't be said.
use crate::person::{append, asked, bytes, folder, made, options, program, said, typed, Said};
use std::fs::File;
use std::path::Path;
use std::process::{Command, Stdio};

fn full() -> File {
    let full = File::options().write(true).open("/dev/full");
    full.expect("it is there")
}

/// `new` of a file, an append to it and a copy of it, each with another end of its answer.
fn all_three(name: &str, run: impl Fn(&mut Command) -> Said) -> [String; 3] {
    let folder = folder(name);
    let (path, copy) = (folder.join("one.journal"), folder.join("copy.journal"));
    let new = run(program().args(["new", "--size", "4K"]).arg(&path));
    let appended = run(program().arg("append").arg(&path).arg("A=1"));
    assert_eq!(typed("values", &path, &["A"]).done(), "1\n");
    let copied = run(program().arg("copy").arg(&path).arg(&copy));
    assert!(bytes(&path) == bytes(&copy));
    [new, appended, copied].map(|said| {
        assert_eq!((said.status, &*said.out), (Some(0), ""), "{}", said.err);
        said.err
    })
}

/// A full disk: standard error has what could not be printed, and the status is 0.
#[test]
fn on_a_full_disk() {
    let lines = all_three("told-full", |command| said(command.stdout(full())));
    let starts = ["made, 4096 bytes, ", "appended entry 1, ", "copied, 4096 "];
    for (line, start) in lines.iter().zip(starts) {
        let line = line.strip_prefix("journal: ").expect("its name");
        assert!(line.starts_with(start), "{line}");
        let end = "; this was done, but could not be printed: no room on the disk\n";
        assert!(line.ends_with(end) && line.lines().count() == 1, "{line}");
    }
}

/// Where nobody can be told, the status tells.
#[test]
fn to_nobody() {
    let both = |command: &mut Command| said(command.stdout(full()).stderr(full()));
    assert_eq!(all_three("told-nobody", both), ["", "", ""]);
}

#[test]
fn quietly() {
    let quiet = |command: &mut Command| said(command.arg("--quiet"));
    assert_eq!(all_three("told-quiet", quiet), ["", "", ""]);
    // What fails is said all the same.
    let path = made(&folder("told-quiet-failed"), "one.journal", "4096");
    assert_eq!(typed("append", &path, &["--quiet", "A"]).refused(&path), 15);
}

/// `append FILE .. | true`: the pipe is closed when the entry is on the disk.
#[test]
fn to_a_closed_pipe() {
    let path = made(&folder("told-pipe"), "one.journal", "4096");
    let lock = File::options().read(true).write(true).open(&path);
    let lock = lock.expect("it is there");
    lock.lock().expect("the lock is free");
    let mut command = program();
    command.arg("append").arg(&path).args(options(1));
    command.args(["--wait", "20", "A=1"]);
    command.stdout(Stdio::piped()).stderr(Stdio::piped());
    let mut child = command.spawn().expect("it runs");
    drop(child.stdout.take());
    lock.unlock().expect("it was held");
    let said = Said::from(child.wait_with_output().expect("it ends"));
    assert_eq!(said.status, Some(0), "{}", said.err);
    let start = "journal: appended entry 1, 2023-11-14 22:13:20.000001 +0000 (1700000000000001), ";
    assert!(said.err.starts_with(start), "{}", said.err);
    let end = "; this was done, but could not be printed: Broken pipe (os error 32)\n";
    assert!(said.err.ends_with(end), "{}", said.err);
    assert!(holds_one(&path));
    append(&path, 2, &["A=1"]).done();
}

fn holds_one(path: &Path) -> bool {
    asked("list", path).done().lines().count() == 2
}
