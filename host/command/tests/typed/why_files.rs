//! The one condition that applies to a file, by its header: 4, 5, 12 and 13.
use crate::in_full::everyone;
use crate::person::{append, asked, bytes, file, folder, made};
use checks::corpus;
use checks::generator::frame::set;
use reading::layout::header;
use std::path::Path;

/// What all say who read the file.
fn of(path: &Path, number: u64) -> String {
    let full = everyone(path);
    assert_eq!((full.number, &*full.place), (number, "the header"));
    full.sentence
}

const UNREAD: &str = "its results may be right, but none of them is read: use journalctl for it";
const NONE: &str =
    "so that its results can't be found, and none of them is read: copy it again, or \
                    restore it from a copy";

fn sentence(said: String, number: u64) -> String {
    let (sentence, rule) = said.split_once(" (refusal ").expect("a rule");
    assert!(rule.starts_with(&format!("{number}: ")), "{said}");
    sentence.to_string()
}

#[test]
fn by_a_newer_systemd() {
    let mut image = corpus::image("trixie-k1-c0-system");
    set(&mut image, header::HEADER_SIZE, 280);
    let longer = format!(
        "the file is likely of a newer systemd, its header has 280 bytes, and 256, 264 or 272 are read \
         here; {UNREAD}, or a newer version of this program"
    );
    let path = file(&folder("why-newer"), "newer.journal", &image);
    assert_eq!(of(&path, 5), longer);
}

#[test]
fn other_forms() {
    let folder = folder("why-forms");
    let image = bytes(&made(&folder, "one.journal", "4096"));
    let flagged = |flags: u8| {
        let mut image = image.clone();
        image[header::INCOMPATIBLE_FLAGS as usize] |= flags;
        of(&file(&folder, "form.journal", &image), 4)
    };
    let compressed = |by: &str| {
        format!("the file may hold fields compressed by {by}, which are not read here; {UNREAD}")
    };
    assert_eq!(flagged(1), compressed("xz"));
    assert_eq!(flagged(8), compressed("zstd"));
    assert_eq!(flagged(2 + 8), compressed("lz4 and zstd"));
    // Being compact is no hindrance.
    assert_eq!(flagged(8 + 16), compressed("zstd"));
    let unknown = format!(
        "the file's header names a form that is not known here, likely of a newer systemd; {UNREAD}, or \
         a newer version of this program"
    );
    assert_eq!(flagged(32), unknown);
    assert_eq!(flagged(16 + 64), unknown);
}

#[test]
fn sizes() {
    let folder = folder("why-sizes");
    let image = bytes(&made(&folder, "one.journal", "4096"));
    let changed = |at: u64, value: u64| {
        let mut image = image.clone();
        set(&mut image, at, value);
        of(&file(&folder, "size.journal", &image), 5)
    };
    let older = format!(
        "the file is likely of an older systemd, its header has 240 bytes, and 256, 264 or 272 are read \
         here; {UNREAD}"
    );
    assert_eq!(changed(header::HEADER_SIZE, 240), older);
    for size in [7, 257, 271] {
        let damaged = format!(
            "the file is damaged, its header has a header_size of {size}, and not 256, 264 or 272, \
             {NONE}"
        );
        assert_eq!(changed(header::HEADER_SIZE, size), damaged);
    }
    // With a longer header the arena passes the end of the file.
    let short = |length: u64, end: u64| {
        format!(
            "the file is shorter than its header says, it has {length} bytes of {end}, so that results \
             could be missing, and none of them is read: copy it again, or restore it from a copy"
        )
    };
    assert_eq!(changed(header::HEADER_SIZE, 272), short(4_096, 4_112));
    let odd = format!(
        "the file is damaged, its header has an arena_size of 3841, no multiple of 8, {NONE}"
    );
    assert_eq!(changed(header::ARENA_SIZE, 3_841), odd);
    assert_eq!(changed(header::ARENA_SIZE, 3_848), short(4_096, 4_104));
    let cut = file(&folder, "cut.journal", &image[..4_088]);
    assert_eq!(of(&cut, 5), short(4_088, 4_096));
}

/// What can be read and takes no append.
#[test]
fn no_appends() {
    let folder = folder("why-no-appends");
    let image = bytes(&made(&folder, "one.journal", "4096"));
    let changed = |at: u64, value: u8, number: u64| {
        let mut image = image.clone();
        image[at as usize] = value;
        let path = file(&folder, "changed.journal", &image);
        asked("list", &path).done();
        let said = append(&path, 1, &["A=1"]).failed_with(&path);
        let said = sentence(said, number);
        let rest = said.strip_suffix(": it can be read, append to a new file");
        rest.unwrap_or_else(|| panic!("{said}")).to_string()
    };
    let sealed = "the file is sealed, and an append would break the seal";
    assert_eq!(changed(header::COMPATIBLE_FLAGS, 1, 12), sealed);
    let newer = "the file has a feature of a newer systemd that an append would break";
    assert_eq!(changed(header::COMPATIBLE_FLAGS, 8 + 2, 12), newer);
    let other = "the file has a flag of headers of 272 bytes, and its header has 256";
    assert_eq!(changed(header::COMPATIBLE_FLAGS, 2, 12), other);
    let cut_off = "the file is in use, or an append to it was cut off";
    assert_eq!(changed(header::STATE, 1, 13), cut_off);
    assert_eq!(changed(header::STATE, 2, 13), "the file is archived");
    let unknown = "the file has state 3, which is not known here";
    assert_eq!(changed(header::STATE, 3, 13), unknown);
}
