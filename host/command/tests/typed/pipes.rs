//! Where the answer goes, and what the program has to work with.
use crate::person::{file, folder, program, said, typed, Said};
use checks::generator::full::full;
use std::fs::File;
use std::io::{BufRead, BufReader, Read};
use std::os::unix::process::ExitStatusExt;
use std::path::PathBuf;
use std::process::{Command, Stdio};

/// A file whose list does not fit a pipe.
fn long(name: &str) -> PathBuf {
    let image = full(&[3_000], false, 0);
    file(&folder(name), "long.journal", &image)
}

/// `list FILE | head -n 2`: the pipe is closed after the second line, and nothing is said.
#[test]
fn a_pipe_that_is_closed() {
    let mut child = program()
        .arg("list")
        .arg(long("closed-pipe"))
        .stdout(Stdio::piped())
        .stderr(Stdio::piped())
        .spawn()
        .expect("it runs");
    let mut lines = BufReader::new(child.stdout.take().expect("a pipe")).lines();
    let heading = lines.next().expect("a heading").expect("text");
    assert!(heading.starts_with("seqnum  local time "), "{heading}");
    let first = lines.next().expect("an entry").expect("text");
    assert!(
        first.starts_with("     1  1970-01-01 00:00:00.000001 +0000  "),
        "{first}"
    );
    drop(lines);
    let mut words = String::new();
    let mut err = child.stderr.take().expect("a pipe");
    err.read_to_string(&mut words).expect("text");
    assert_eq!(words, "");
    let sigpipe = 13;
    assert_eq!(child.wait().expect("it ends").signal(), Some(sigpipe));
}

/// The same of a text, in which each entry has five lines.
#[test]
fn a_text_that_nobody_reads() {
    let mut child = program()
        .arg("export")
        .arg(long("closed-text"))
        .stdout(Stdio::piped())
        .stderr(Stdio::piped())
        .spawn()
        .expect("it runs");
    let lines = BufReader::new(child.stdout.take().expect("a pipe")).lines();
    let sixth = lines.map(|line| line.expect("text")).nth(5);
    assert_eq!(sixth.as_deref(), Some("__REALTIME_TIMESTAMP=2"));
    let ended = child.wait_with_output().expect("it ends");
    assert_eq!(ended.stderr, b"");
    let sigpipe = 13;
    assert_eq!(ended.status.signal(), Some(sigpipe));
}

/// A disk that takes no answer is not taken for success.
#[test]
fn an_answer_that_can_not_be_written() {
    let path = long("full-output");
    for command in ["list", "export", "check", "why", "foreign"] {
        let full = File::options().write(true).open("/dev/full");
        let full = full.expect("it is there");
        let answer = said(program().arg(command).arg(&path).stdout(full));
        let words = answer.failed(1);
        assert_eq!(words, "the answer can't be written: no room on the disk");
    }
}

/// `list FILE >&-`: where there is no standard output at all, nothing was answered.
#[test]
fn an_output_that_is_closed() {
    let path = long("closed-output");
    let shell = |script: &str| {
        let mut shell = Command::new("sh");
        shell.args(["-c", script, env!("CARGO_BIN_EXE_journal")]);
        said(shell.arg(&path))
    };
    for script in [
        "exec \"$0\" list \"$1\" >&-",
        "exec \"$0\" export \"$1\" >&-",
        "exec \"$0\" check \"$1\" >&-",
        "exec \"$0\" why \"$1\" >&-",
        "exec \"$0\" find \"$1\" --seqnum 1 <&- >&-",
        "exec \"$0\" --help >&-",
    ] {
        let words = shell(script).failed(1);
        assert_eq!(
            words,
            "the answer can't be written: standard output is closed"
        );
    }
    // One that leads nowhere is meant so, and the others may be closed.
    assert_eq!(shell("exec \"$0\" list \"$1\" >/dev/null").done(), "");
    assert_eq!(shell("exec \"$0\" list \"$1\" 1<>/dev/null").done(), "");
    let last = shell("exec \"$0\" list \"$1\" -n 1 --no-header <&- 2>&-").done();
    assert!(last.starts_with("  3000  "), "{last}");
}

/// The first thread's stack may be shorter than what the library needs.
#[test]
fn a_short_stack() {
    let path = long("stack");
    let output = Command::new("sh")
        .args(["-c", "ulimit -s 512; exec \"$0\" find \"$1\" --seqnum 3000"])
        .arg(env!("CARGO_BIN_EXE_journal"))
        .arg(&path)
        .env("TZ", "UTC0")
        .output();
    let found = Said::from(output.expect("sh is there")).done();
    assert_eq!(found, typed("find", &path, &["--seqnum", "3000"]).done());
}
