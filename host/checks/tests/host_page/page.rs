//! The pages, and the C programs on one of them.
use std::path::{Path, PathBuf};
use std::process::Command;

pub const HOST: &str = include_str!("../../../../docs/HOST.md");
const C: &str = include_str!("../../../../docs/host/c.md");

/// The declarations, the program that reads and the one that appends.
pub fn blocks() -> [&'static str; 3] {
    let block = |rest: &'static str| rest.split_once("```").expect("the block ends").0;
    let blocks: Vec<&str> = C.split("```c\n").skip(1).map(block).collect();
    blocks.try_into().expect("three blocks of C")
}

/// Where the archive is.
pub fn archive() -> PathBuf {
    Path::new(env!("CARGO_MANIFEST_DIR")).join("../../target/staticlib/libjournal.a")
}

/// An empty folder for a test.
pub fn folder(name: &str) -> PathBuf {
    let folder = Path::new(env!("CARGO_TARGET_TMPDIR")).join(format!("page-{name}"));
    if folder.exists() {
        std::fs::remove_dir_all(&folder).expect("the folder of an earlier run");
    }
    std::fs::create_dir(&folder).expect("a folder");
    folder
}

/// Builds a program in a folder, beside its declarations; where it is. More files and options may go
/// with it.
pub fn built(folder: &Path, source: &str, more: &[&str]) -> PathBuf {
    let write = |name: &str, text: &str| {
        std::fs::write(folder.join(name), text).expect("a file for the example");
    };
    write("journal.h", blocks()[0]);
    write("example.c", source);
    let program = folder.join("example");
    let status = Command::new("cc")
        .args(["-Wall", "-Wextra", "-Werror", "-o"])
        .args([&program, &folder.join("example.c")])
        .args(more)
        .arg(archive())
        .status()
        .expect("cc is there, as for cargo");
    assert!(status.success());
    program
}
