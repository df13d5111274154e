//! A file that is replaced or removed while somebody waits for its lock.
use crate::cut::preloaded;
use crate::expected::expected;
use crate::person::{append, bytes, folder, made, options, program, said, Said};
use std::fs::{read_dir, read_link, File};
use std::path::{Path, PathBuf};
use std::process::{Child, Command, Stdio};
use std::time::{Duration, Instant};

/// A file whose lock is held, another one, and a second name of the first.
fn locked(name: &str) -> (PathBuf, PathBuf, PathBuf, File) {
    let folder = folder(name);
    let [path, other] = ["one.journal", "two.journal"].map(|name| made(&folder, name, "4096"));
    append(&path, 1, &["A=old"]).done();
    let kept = folder.join("kept.journal");
    std::fs::hard_link(&path, &kept).expect("a second name");
    let lock = File::options().read(true).write(true).open(&path);
    let lock = lock.expect("it is there");
    lock.lock().expect("the lock is free");
    (path, other, kept, lock)
}

/// Starts a command and waits until it has the file open.
pub fn started(command: &mut Command, path: &Path) -> Child {
    command.stdout(Stdio::piped()).stderr(Stdio::piped());
    let child = command.spawn().expect("it runs");
    let own = format!("/proc/{}/fd", child.id());
    let start = Instant::now();
    let has_it = || {
        let open = read_dir(&own).expect("it runs");
        open.flatten()
            .any(|open| read_link(open.path()).is_ok_and(|open| open == path))
    };
    while !has_it() {
        assert!(start.elapsed() < Duration::from_secs(60), "it never opens");
        std::thread::sleep(Duration::from_millis(1));
    }
    child
}

fn waiting_append(path: &Path) -> Child {
    let mut command = program();
    command.arg("append").arg(path).args(options(1));
    started(command.args(["--wait", "20", "A=new"]), path)
}

fn end(child: Child) -> Said {
    Said::from(child.wait_with_output().expect("it ends"))
}

#[test]
fn by_another() {
    let (path, other, kept, lock) = locked("replaced");
    let (old, new) = (bytes(&path), bytes(&other));
    let child = waiting_append(&path);
    std::fs::rename(&other, &path).expect("it is put in its place");
    let text = end(child).done();
    assert!(text.starts_with("appended entry 1, "), "{text}");
    assert!(bytes(&path) == expected(&new, 1, &[b"A=new"]).0);
    assert!(bytes(&kept) == old);
    drop(lock);
}

#[test]
fn removed() {
    let (path, _, kept, lock) = locked("removed");
    let old = bytes(&path);
    let child = waiting_append(&path);
    std::fs::remove_file(&path).expect("it is there");
    lock.unlock().expect("it was held");
    let words = end(child).failed_with(&path);
    assert_eq!(words, "there is no such file or folder");
    assert!(bytes(&kept) == old && !path.exists());
}

/// The same for those who read: what they print is of the file that has the name.
#[test]
fn read() {
    let (path, other, _, lock) = locked("replaced-reader");
    append(&other, 7, &["MESSAGE=new"]).done();
    let child = started(program().arg("list").arg(&path), &path);
    std::fs::rename(&other, &path).expect("it is put in its place");
    lock.unlock().expect("it was held");
    let listed = end(child).done();
    assert!(listed.ends_with("  new\n"), "{listed}");
}

/// Between the opening and the lock.
#[test]
fn at_the_last_moment() {
    let folder = folder("replaced-last");
    let path = made(&folder, "one.journal", "4096");
    let old = bytes(&path);
    let kept = folder.join("kept.journal");
    std::fs::hard_link(&path, &kept).expect("a second name");
    let other = made(&folder, "two.journal", "65536");
    let new = bytes(&other);
    let mut command = program();
    preloaded(&mut command, "REPLACE", 1)
        .env("BY", &other)
        .env("AT", &path);
    command.arg("append").arg(&path).args(options(1));
    said(command.arg("A=new")).done();
    assert!(bytes(&path) == expected(&new, 1, &[b"A=new"]).0);
    assert!(bytes(&kept) == old);
}
