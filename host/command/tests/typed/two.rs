//! Two files to be read as one stream, and the commands with both.
use crate::person::{append, bytes, file, made, program, said, Said};
use reading::layout::header;
use std::path::{Path, PathBuf};

/// `journal NAME FILE FILE2 WORDS`.
pub fn of_two(name: &str, files: &[PathBuf; 2], words: &[&str]) -> Said {
    let mut command = program();
    said(command.arg(name).args(files).args(words))
}

/// A file under a seqnum id: numbers, and the fields of each.
fn written(folder: &Path, name: &str, id: u8, entries: &[(u64, &[&str])]) -> PathBuf {
    let path = made(folder, name, "65536");
    let mut image = bytes(&path);
    image[header::SEQNUM_ID as usize..][..16].fill(id);
    let path = file(folder, name, &image);
    for (seqnum, fields) in entries {
        append(&path, *seqnum, fields).done();
    }
    path
}

/// Two files, the second under a seqnum id. Under the first's, 4, entry 3 is one in both.
pub fn both(folder: &Path, id: u8) -> [PathBuf; 2] {
    let wet: &[&str] = &["STATE=wet", "MESSAGE=counted"];
    let first: [(u64, &[&str]); 3] = [(1, &["STATE=sown"]), (3, wet), (5, &["STATE=dead"])];
    let second: [(u64, &[&str]); 3] = [(2, &["STATE=wet"]), (3, wet), (7, &["STATE=lost"])];
    [
        written(folder, "one.journal", 4, &first),
        written(folder, "two.journal", id, &second),
    ]
}
