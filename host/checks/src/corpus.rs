//! The files of journald in `host/data/corpus/`.
use reading::layout::header;
use std::path::{Path, PathBuf};

/// Their names, and what opening them answers.
pub const FILES: [(&str, u64); 7] = [
    ("bullseye-k0-c0-system", 0),
    ("bullseye-k1-c0-online", 0),
    ("bullseye-k1-c0-system-archived", 0),
    ("sealed-bullseye-c0-system", 0),
    ("bookworm-k1-c0-system", 0),
    ("trixie-k1-c0-system", 0),
    ("trixie-k1-c1-system", 0),
];

/// Where a file is.
pub fn path(name: &str) -> PathBuf {
    folder().join(format!("{name}.journal"))
}

/// The image in a file.
pub fn image(name: &str) -> Vec<u8> {
    read(&path(name))
}

/// One of them that says that its fields may be compressed, which is 4.
pub fn compressed() -> Vec<u8> {
    let mut image = image("trixie-k1-c1-system");
    image[header::INCOMPATIBLE_FLAGS as usize] |= 1 << 3;
    image
}

/// What the listing program must print for a file that opens.
pub fn listing(name: &str) -> String {
    String::from_utf8(read(&folder().join(format!("{name}.journal.listing"))))
        .expect("a listing is text")
}

fn folder() -> PathBuf {
    Path::new(env!("CARGO_MANIFEST_DIR")).join("../data/corpus")
}

fn read(path: &Path) -> Vec<u8> {
    std::fs::read(path).unwrap_or_else(|error| panic!("{}: {error}", path.display()))
}
