//! Headers of 256, 264 and 272 bytes: what is made, read and appended to, and what is said of them.
use crate::cut::{course_of, told};
use crate::expected::expected;
use crate::person::{append, asked, bytes, file, folder, typed, BOOT, MACHINE};
use checks::corpus;
use checks::generator::frame::set;
use reading::image::{le32, le64, Image};
use reading::layout::header;
use std::path::{Path, PathBuf};

/// A new file with a header of 272 bytes.
fn long(folder: &Path, name: &str, size: &str) -> PathBuf {
    let path = folder.join(name);
    let words = ["--size", size, "--machine", MACHINE, "--boot", BOOT];
    let words = [&words[..], &["--header-size", "272"]].concat();
    let said = typed("new", &path, &words).done();
    assert!(said.contains(", a header of 272 bytes, file id "), "{said}");
    path
}

/// The line of `check` on the header.
fn line(path: &Path) -> String {
    let text = asked("check", path).done();
    let line = text.lines().nth(3).expect("a fourth line");
    line.strip_prefix("header: ").expect("it is it").to_string()
}

const OF_LAST: &str = "it says that its boot id is that of the last entry";
const OF_ANY: &str = "its boot id need not be that of the last entry";

/// The size is the header's own; what the boot id means goes by compatible bit 1 alone.
#[test]
fn what_check_says() {
    let folder = folder("headers-check");
    for (name, expected) in [
        ("bullseye-k0-c0-system", format!("256 bytes; {OF_ANY}")),
        ("bookworm-k1-c0-system", format!("264 bytes; {OF_ANY}")),
        ("trixie-k1-c0-system", format!("272 bytes; {OF_LAST}")),
        (
            "trixie-k1-c1-system",
            format!("272 bytes, compact; {OF_LAST}"),
        ),
    ] {
        assert_eq!(line(&corpus::path(name)), expected);
        let mut image = corpus::image(name);
        for (flags, words) in [(0, OF_ANY), (2, OF_LAST), (5, OF_ANY), (255, OF_LAST)] {
            image[header::COMPATIBLE_FLAGS as usize] = flags;
            let (size, _) = expected.split_once(';').expect("two parts");
            let path = file(&folder, name, &image);
            assert_eq!(line(&path), format!("{size}; {words}"), "{name} {flags}");
        }
    }
}

/// Entries of a file with the long header, byte for byte, with its late fields and the room left.
#[test]
fn appends() {
    let folder = folder("headers-append");
    let path = long(&folder, "one.journal", "8192");
    assert_eq!(line(&path), format!("272 bytes; {OF_LAST}"));
    let mut taken = 0;
    let refused = loop {
        let before = bytes(&path);
        let said = append(&path, taken + 1, &["A=1", "MESSAGE=wet"]);
        if said.status != Some(0) {
            assert!(bytes(&path) == before);
            break said.failed_with(&path);
        }
        taken += 1;
        let (after, stores) = expected(&before, taken, &[b"A=1", b"MESSAGE=wet"]);
        let said = said.done();
        assert!(said.contains(&format!(", {stores} stores, ")), "{said}");
        assert!(bytes(&path) == after, "{taken}");
        // The array of the last entry, the entries in it, and the last entry.
        let [array, count] = [256, 260].map(|at| u64::from(le32(&after, at)));
        let last = le64(&after, 264);
        assert_eq!(le64(&after, array + 24 + 8 * (count - 1)), last);
        assert_eq!(le64(&after, last + 16), taken);
        assert_eq!(le32(&after, header::COMPATIBLE_FLAGS), 2);
    };
    assert!(taken > 20, "{taken}");

    let image = bytes(&path);
    let last = *Image::walked(&image).objects.last().expect("objects");
    let left = 8_192 - last.next();
    let start = format!("the file is full, {left} bytes are left: go on in a new one, ");
    assert!(refused.starts_with(&start), "{refused}");
    let room = format!("\nroom: {left} of 7920 bytes left, ");
    assert!(asked("check", &path).done().contains(&room));

    let to = folder.join("copy.journal");
    typed("copy", &path, &[&to]).done();
    assert!(bytes(&to) == image);
    assert_eq!(asked("list", &to).done().lines().count() as u64, taken + 1);
}

/// Ended at each of its syncs, such a file has the stores up to there and no others.
#[test]
fn cuts() {
    let folder = folder("headers-cut");
    let (before, cuts) = course_of(&long(&folder, "two.journal", "4096"));
    assert_eq!(cuts.len(), 6);
    for (cut, n) in cuts.iter().zip(1..) {
        let path = file(&folder, "cut.journal", &before);
        assert_eq!(told(&path, "KILL_AT", n).status, None);
        assert!(bytes(&path) == *cut, "at sync {n}");
        let count = 1 + if n < 5 { 2 } else { 3 };
        assert_eq!(asked("list", &path).done().lines().count(), count);
    }
}

/// What journald of systemd 257 wrote takes an append where there is room, by the late fields; what
/// that of 252 wrote takes none.
#[test]
fn real_files() {
    let folder = folder("headers-real");
    let grown = |name: &str| {
        let mut image = corpus::image(name);
        let arena = le64(&image, header::ARENA_SIZE);
        set(&mut image, header::ARENA_SIZE, arena + 4_096);
        image.resize(image.len() + 4_096, 0);
        image[header::MACHINE_ID as usize..][..16].fill(2);
        image
    };
    for name in ["trixie-k1-c0-system", "trixie-k1-c1-system"] {
        let image = grown(name);
        let path = file(&folder, "272.journal", &image);
        append(&path, 41, &["A=1"]).done();
        let after = bytes(&path);
        assert!(after == expected(&image, 41, &[b"A=1"]).0);
        assert_eq!(le32(&after, 260), le32(&image, 260) + 1);
        for at in [256, 260, 264] {
            let mut wrong = image.clone();
            wrong[at] ^= 8;
            let path = file(&folder, "wrong.journal", &wrong);
            assert_eq!(append(&path, 41, &["A=1"]).refused(&path), 14, "{at}");
        }
    }

    let image = grown("bookworm-k1-c0-system");
    let path = file(&folder, "264.journal", &image);
    let said = append(&path, 41, &["A=1"]).failed_with(&path);
    let expected =
        "the file has a header of 264 bytes, as systemd 252 and 253 made them: it can be \
                    read, append to a new file (refusal 25: header_size is 264)";
    assert_eq!(said, expected);
    let checked = asked("check", &path).done();
    let line = format!("takes no append: {expected}");
    assert_eq!(checked.lines().nth(1), Some(&*line));
    assert!(bytes(&path) == image);
    // 12 comes before 25, and 25 before 13.
    for (at, value, number) in [(header::COMPATIBLE_FLAGS, 2, 12), (header::STATE, 1, 25)] {
        let mut other = image.clone();
        other[at as usize] = value;
        let path = file(&folder, "other.journal", &other);
        assert_eq!(append(&path, 41, &["A=1"]).refused(&path), number);
    }
}
