//! Ctrl-C, a closed terminal and `kill`: never in the middle of an append.
use crate::cut::{course, preloaded};
use crate::person::{append, asked, bytes, file, folder, made, options, program};
use crate::replaced::started;
use std::ffi::OsStr;
use std::fs::File;
use std::io::Read;
use std::os::unix::process::ExitStatusExt;
use std::path::Path;
use std::process::{Child, Command, Stdio};

const HANGUP: i32 = 1;
const INTERRUPT: i32 = 2;
const QUIT: i32 = 3;
const PIPE: i32 = 13;
const TERMINATE: i32 = 15;

/// What it printed, and the signal that ended it.
fn ended(mut child: Child) -> (String, Option<i32>) {
    let mut text = String::new();
    let mut out = child.stdout.take().expect("a pipe");
    out.read_to_string(&mut text).expect("text");
    (text, child.wait().expect("it ends").signal())
}

/// An append of a third entry, with all its output in pipes.
fn third(command: &mut Command, path: &Path) -> Child {
    command.arg("append").arg(path).args(options(3));
    command.args(["A=1", "B=2"]);
    command.stdout(Stdio::piped()).stderr(Stdio::piped());
    command.spawn().expect("it runs")
}

/// The entry is whole, it is said to be, and then the signal is obeyed. The file takes the next one.
#[test]
fn at_every_sync() {
    let folder = folder("signals");
    let (before, cuts) = course(&folder);
    for signal in [HANGUP, INTERRUPT, QUIT, PIPE, TERMINATE] {
        for n in 1..=6 {
            let path = file(&folder, "signal.journal", &before);
            let mut command = program();
            preloaded(&mut command, "SIGNAL_AT", n).env("SIGNAL", signal.to_string());
            let (text, obeyed) = ended(third(&mut command, &path));
            assert!(bytes(&path) == cuts[5], "signal {signal} at sync {n}");
            assert!(text.starts_with("appended entry 3, "), "{text}");
            // This one is of no use any more once the answer is printed.
            let expected = if signal == PIPE { None } else { Some(signal) };
            assert_eq!(obeyed, expected, "at sync {n}");
            append(&path, 4, &["A=1"]).done();
        }
    }
}

/// Who ignores a signal, as under `nohup`, is not ended by it.
#[test]
fn ignored() {
    let folder = folder("signals-ignored");
    let (before, cuts) = course(&folder);
    let path = file(&folder, "signal.journal", &before);
    let mut command = Command::new("sh");
    command.args(["-c", "trap '' HUP; exec \"$0\" \"$@\""]);
    command.arg(env!("CARGO_BIN_EXE_journal"));
    preloaded(&mut command, "SIGNAL_AT", 3).env("SIGNAL", HANGUP.to_string());
    let (text, obeyed) = ended(third(&mut command, &path));
    assert!(text.starts_with("appended entry 3, "), "{text}");
    assert_eq!(obeyed, None);
    assert!(bytes(&path) == cuts[5]);
}

/// Before the first store nothing is held back: while the lock is waited for, and when blocks are
/// asked for, Ctrl-C ends an append at once.
#[test]
fn before_the_first_store() {
    let path = made(&folder("signals-before"), "one.journal", "4096");
    let before = bytes(&path);
    let other = File::options().read(true).write(true).open(&path);
    let other = other.expect("it is there");
    other.lock().expect("the lock is free");
    let mut command = program();
    command
        .arg("append")
        .arg(&path)
        .args(["--wait", "20", "A=1"]);
    let child = started(&mut command, &path);
    let kill = Command::new("kill")
        .args(["-s", "INT", &child.id().to_string()])
        .status();
    assert!(kill.expect("kill is there").success());
    assert_eq!(ended(child), (String::new(), Some(INTERRUPT)));
    other.unlock().expect("it was held");

    let mut command = program();
    preloaded(&mut command, "SIGNAL_AT", 0).env("SIGNAL", INTERRUPT.to_string());
    let child = third(&mut command, &path);
    assert_eq!(ended(child), (String::new(), Some(INTERRUPT)));
    assert_eq!(bytes(&path), before);
}

/// A new file and a copy are whole, too.
#[test]
fn new_files() {
    let folder = folder("signals-new");
    let (path, copy) = (folder.join("one.journal"), folder.join("copy.journal"));
    for (words, made) in [
        (["new", "--size=4096"].map(OsStr::new), &path),
        (["copy".as_ref(), path.as_os_str()], &copy),
    ] {
        let mut command = program();
        preloaded(&mut command, "SIGNAL_AT", 0).env("SIGNAL", TERMINATE.to_string());
        command.args(words).arg(made).stdout(Stdio::piped());
        let (text, obeyed) = ended(command.spawn().expect("it runs"));
        assert_eq!(obeyed, Some(TERMINATE), "{text}");
        assert_eq!(text.lines().count(), 1);
        asked("list", made).done();
        assert_eq!(bytes(made).len(), 4_096);
    }
}
