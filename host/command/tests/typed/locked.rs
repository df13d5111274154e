//! Several programs at one file.
use crate::person::{append, asked, bytes, checked, folder, made, program, Said, MACHINE};
use std::fs::File;
use std::process::Stdio;

/// While one appends, nobody else does, and nobody reads half an append; who reads does not hinder
/// others that read.
#[test]
fn a_lock_that_is_held() {
    let path = made(&folder("locked"), "one.journal", "4096");
    let before = bytes(&path);
    let other = File::options().read(true).write(true).open(&path);
    let other = other.expect("it is there");

    other.lock().expect("the lock is free");
    let words = append(&path, 1, &["A=1"]).failed_with(&path);
    assert_eq!(words, "another program appends to it, or reads it for long");
    let words = asked("list", &path).failed_with(&path);
    assert_eq!(words, "another program appends to it");
    other.unlock().expect("it was held");

    other.lock_shared().expect("the lock is free");
    assert_eq!(checked(&path), "opens, 0 entries\n");
    let words = append(&path, 1, &["A=1"]).failed_with(&path);
    assert_eq!(words, "another program appends to it, or reads it for long");
    assert_eq!(bytes(&path), before);
    other.unlock().expect("it was held");

    append(&path, 1, &["A=1"]).done();
}

/// Each of several at once gets its turn or says that it did not; the file has the entries of those
/// that did.
#[test]
fn several_at_once() {
    let path = made(&folder("at-once"), "one.journal", "65536");
    let started: Vec<_> = (0..6)
        .map(|n| {
            let mut command = program();
            command.arg("append").arg(&path);
            command.args(["--machine", MACHINE, &format!("A={n}")]);
            command.stdout(Stdio::piped()).stderr(Stdio::piped());
            command.spawn().expect("it runs")
        })
        .collect();
    let mut done = 0;
    for child in started {
        let said = Said::from(child.wait_with_output().expect("it ends"));
        match said.status {
            Some(0) => done += 1,
            _ => assert!(said
                .failed_with(&path)
                .starts_with("another program appends")),
        }
    }
    assert!(done > 0);
    let count = if done == 1 { "entry" } else { "entries" };
    assert_eq!(checked(&path), format!("opens, {done} {count}\n"));
}

/// Somebody who reads all the time does not keep an append from its turn, nor sees a half one.
#[test]
fn read_while_appended_to() {
    let path = made(&folder("read-and-append"), "one.journal", "65536");
    let reader = path.clone();
    let reading = std::thread::spawn(move || {
        for _ in 0..40 {
            asked("check", &reader).done();
        }
    });
    for seqnum in 1..8 {
        append(&path, seqnum, &["A=1", "B=2"]).done();
    }
    reading.join().expect("every check was done");
}
