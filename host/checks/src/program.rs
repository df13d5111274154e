//! The listing program, as a process of its own.
use std::io::{ErrorKind, Read, Write};
use std::path::PathBuf;
use std::process::{Command, Stdio};

/// Where `rt run` writes it.
pub fn path() -> PathBuf {
    PathBuf::from(env!("CARGO_MANIFEST_DIR")).join("../../crates/list/out/list")
}

/// What it prints, with this as its standard input.
pub fn list(input: &[u8]) -> String {
    let mut child = Command::new(path())
        .stdin(Stdio::piped())
        .stdout(Stdio::piped())
        .spawn()
        .expect("crates/list/out/list runs: `rt run` in crates/list makes it");
    // It prints when it has read what it takes, and does not read all of a long input.
    let written = child.stdin.take().expect("a pipe").write_all(input);
    if let Err(error) = written {
        assert_eq!(error.kind(), ErrorKind::BrokenPipe);
    }
    let mut text = String::new();
    let mut output = child.stdout.take().expect("a pipe");
    output.read_to_string(&mut text).expect("it prints text");
    assert!(child.wait().expect("it ends").success());
    text
}
