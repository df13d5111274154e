//! The script `run`, in a small tree of its own, with an `rt` and a `cargo` that only note that they were
//! called and write the file that they are for.
mod tree;

use tree::{Tree, ARCHIVE, LINKED, OLD_PROGRAM, PROGRAM, PROVED};

const BOTH: &str = "rt lib\ncargo build\n";

/// Once built, nothing is called, nothing is written, and nothing has to be there but the program.
#[test]
fn once_built() {
    let tree = Tree::new("built");
    let before = tree.times();
    tree.runs("", "old", "");
    assert_eq!(tree.times(), before);
    tree.remove("bin/rt");
    tree.remove("bin/cargo");
    tree.runs("", "old", "");
    // What the program is not made from may be newer, and the archive may be gone.
    tree.date("host/checks/lib.rs", 9);
    tree.date("run", 9);
    tree.remove(ARCHIVE);
    tree.runs("", "old", "");
}

#[test]
fn a_newer_source() {
    let tree = Tree::new("newer");
    let again = |path: &str, calls: &str| {
        tree.write(PROGRAM, OLD_PROGRAM);
        tree.date(PROGRAM, 3);
        tree.date(ARCHIVE, 2);
        tree.date(path, 4);
        tree.runs("", "new", calls);
        tree.runs("", "new", "");
        tree.date(path, 1);
    };
    for path in PROVED {
        again(path, BOTH);
    }
    // A file was removed there.
    again("crates/journal/src", BOTH);
    for path in LINKED {
        again(path, "cargo build\n");
    }
    again("host/command/src", "cargo build\n");
    again(ARCHIVE, "cargo build\n");
    // The program is newer than the source, but its archive is not.
    tree.date("crates.txt", 3);
    tree.date(ARCHIVE, 2);
    tree.runs("", "new", BOTH);
}

#[test]
fn something_missing() {
    let tree = Tree::new("missing");
    tree.remove(PROGRAM);
    tree.runs("", "new", "cargo build\n");
    tree.remove(PROGRAM);
    tree.remove(ARCHIVE);
    tree.runs("", "new", BOTH);
    // Without the archive it is the program that a source is compared with.
    tree.remove(ARCHIVE);
    tree.date(PROGRAM, 3);
    tree.date("crates.txt", 4);
    tree.runs("", "new", BOTH);
}

/// What cargo has no reason to make again is asked for once.
#[test]
fn left_as_it_was() {
    let tree = Tree::new("left");
    tree.date("host/command/src/main.rs", 4);
    tree.runs("leave", "old", "cargo build\n");
    tree.runs("", "old", "");
}

#[test]
fn edited_while_it_is_made() {
    let tree = Tree::new("edited");
    tree.date("host/Cargo.toml", 4);
    tree.runs("edit", "new", "cargo build\n");
    tree.runs("", "new", "cargo build\n");
    tree.runs("", "new", "");
}

/// The old program is named, and not run.
#[test]
fn it_can_not_be_made() {
    let tree = Tree::new("failing");
    let program = tree.0.join(PROGRAM).display().to_string();
    tree.date("host/Cargo.toml", 4);
    let (out, err, status, _) = tree.run("fail");
    assert_eq!((&*out, status), ("", Some(1)));
    assert!(err.starts_with("words of cargo\nrun: this failed: cargo build "));
    let last = format!("; the program from before is {program}\n");
    assert!(err.ends_with(&last), "{err}");

    tree.remove("bin/cargo");
    let source = tree.0.join("host/Cargo.toml").display().to_string();
    let (out, err, status, _) = tree.run("");
    assert_eq!((&*out, status), ("", Some(1)));
    let words = "and there is no cargo here";
    assert_eq!(
        err,
        format!("run: {source} is newer than {program}, {words}{last}")
    );

    tree.remove(PROGRAM);
    let (_, err, status, _) = tree.run("");
    assert_eq!(err, format!("run: {program} is missing, {words}\n"));
    assert_eq!(status, Some(1));

    tree.remove("bin/rt");
    tree.remove(ARCHIVE);
    let (_, err, status, _) = tree.run("");
    let words = "and there is no rt here";
    assert_eq!(err, format!("run: {program} is missing, {words}\n"));
    assert_eq!(status, Some(1));
}
