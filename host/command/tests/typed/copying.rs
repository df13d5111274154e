//! `copy`: whole between two appends, and never over another file.
use crate::cut::preloaded;
use crate::person::{
    append, asked, bytes, file, folder, made, options, program, said, typed, Said,
};
use checks::corpus;
use reading::layout::MOST_BYTES;
use std::fs::{metadata, File, Permissions};
use std::os::unix::fs::PermissionsExt;
use std::path::Path;
use std::process::Stdio;

fn copy(path: &Path, to: &Path) -> Said {
    typed("copy", path, &[to])
}

#[test]
fn every_byte() {
    let folder = folder("copy");
    let to = folder.join("copy.journal");
    let path = corpus::path("bullseye-k1-c0-online");
    let text = copy(&path, &to).done();
    let image = bytes(&path);
    assert_eq!(text, format!("copied, {} bytes\n", image.len()));
    assert!(bytes(&to) == image);
    assert_eq!(asked("list", &to).done(), asked("list", &path).done());

    // A file that is damaged or empty is copied as it is.
    for (name, image) in [("damaged", &image[..1_000]), ("empty", b"")] {
        let path = file(&folder, name, image);
        let to = folder.join(format!("{name}-copy"));
        copy(&path, &to).done();
        assert_eq!(bytes(&to), image);
    }
}

#[test]
fn never_over_another() {
    let folder = folder("copy-over");
    let path = made(&folder, "one.journal", "4096");
    let other = file(&folder, "other", b"some bytes");
    let words = copy(&path, &other).failed_with(&other);
    assert_eq!(words, "is there already, and is not overwritten");
    assert_eq!(bytes(&other), b"some bytes");
    let before = bytes(&path);
    copy(&path, &path).failed(1);
    assert_eq!(bytes(&path), before);

    let missing = folder.join("missing/copy.journal");
    let words = copy(&path, &missing).failed_with(&missing);
    assert_eq!(words, "there is no such file or folder");
    let new = folder.join("new.journal");
    let mut command = program();
    command.arg("copy").arg(&path).arg(&new);
    let full = said(preloaded(&mut command, "FULL", 1));
    assert_eq!(full.failed_with(&new), "no room on the disk");
    assert!(!new.exists());
}

/// What is too long is no journal, and not copied in part.
#[test]
fn too_long() {
    let folder = folder("copy-long");
    let path = folder.join("long.journal");
    let long = File::create(&path).expect("a file");
    let to = folder.join("copy.journal");
    long.set_len(MOST_BYTES + 1).expect("a length");
    assert_eq!(copy(&path, &to).refused(&path), 2);
    assert!(!to.exists());
    long.set_len(MOST_BYTES).expect("a length");
    copy(&path, &to).done();
    assert_eq!(metadata(&to).expect("it is there").len(), MOST_BYTES);
}

/// Nobody may read the copy who may not read the file.
#[test]
fn as_closed_as_the_file() {
    let folder = folder("copy-mode");
    let path = made(&folder, "one.journal", "4096");
    std::fs::set_permissions(&path, Permissions::from_mode(0o600)).expect("it is ours");
    let to = folder.join("copy.journal");
    copy(&path, &to).done();
    let mode = metadata(&to).expect("it is there").permissions().mode();
    assert_eq!(mode & 0o777, 0o600);
}

/// Copies during appends that take their time: each takes the next append, so none has a half one.
#[test]
fn during_appends() {
    let folder = folder("copy-appends");
    let path = made(&folder, "one.journal", "65536");
    let mut counts = Vec::new();
    for seqnum in 1..=4 {
        let mut command = program();
        preloaded(&mut command, "SLOW", 20);
        command.arg("append").arg(&path).args(options(seqnum));
        command.args(["A=1", "B=2"]).stdout(Stdio::null());
        let mut appending = command.spawn().expect("it runs");
        for n in 0..3 {
            let to = folder.join(format!("{seqnum}-{n}.journal"));
            copy(&path, &to).done();
            counts.push(asked("list", &to).done().lines().count());
            append(&to, 9, &["A=1"]).done();
        }
        assert!(appending.wait().expect("it ends").success());
    }
    assert!(counts.is_sorted() && counts.len() == 12, "{counts:?}");

    // Where the lock is not to be had, it says so.
    let lock = File::options().read(true).write(true).open(&path);
    let lock = lock.expect("it is there");
    lock.lock().expect("the lock is free");
    let to = folder.join("none.journal");
    let words = [to.as_os_str(), "--wait=0".as_ref()];
    let said = typed("copy", &path, &words).failed_with(&path);
    assert_eq!(said, "another program appends to it");
    assert!(!to.exists());
}
