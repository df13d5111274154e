//! The sentence on a damaged file, word for word: what is wrong, where, what it means and what to do.
//! The file is that of the worked example, in which the objects stand at 256 (the hash table of the
//! field values), 288 (that of the names), 320 `MESSAGE=lot 12 due`, 408 its name, 456 `PRIORITY=2`, 536
//! its name, 584 the first entry, 680 the list of entries, 736 the second entry, 816 the list of
//! `PRIORITY=2`, up to 872.
use crate::in_full::{everyone, InFull};
use crate::person::{file, folder};
use checks::generator::frame::set;
use checks::generator::worked::two_appends;
use reading::layout::{header, kind};
use std::path::PathBuf;

const AGAIN: &str = "copy it again, or restore it from a copy";

/// A folder for the example with changes.
pub struct Example(PathBuf);

impl Example {
    pub fn new(name: &str) -> Example {
        Example(folder(name))
    }

    /// What everyone says of it with a change: the number, the place, and what is wrong with what that
    /// means.
    pub fn told(
        &self,
        change: impl Fn(&mut [u8]),
        number: u64,
        place: &str,
        what: &str,
        so_that: &str,
    ) -> InFull {
        let mut image = two_appends(1);
        change(&mut image);
        let full = everyone(&file(&self.0, "damaged.journal", &image));
        let sentence = format!(
            "the file is damaged, {what}, so that {so_that}, and none of its results is read: {AGAIN}"
        );
        assert_eq!(full.sentence, sentence);
        assert_eq!((full.number, &*full.place), (number, place), "{sentence}");
        full
    }

    /// The same with a changed word.
    pub fn word(
        &self,
        (at, value): (u64, u64),
        number: u64,
        place: &str,
        what: &str,
        so_that: &str,
    ) {
        let change = |image: &mut [u8]| set(image, at, value);
        let full = self.told(change, number, place, what, so_that);
        assert_eq!(full.hashes, None);
    }
}

/// 1 to 3.
#[test]
fn no_journals() {
    let folder = folder("why-no-journals");
    let of = |image: &[u8]| {
        let full = everyone(&file(&folder, "none.journal", image));
        assert_eq!((&*full.place, full.hashes), ("the header", None));
        (full.number, full.sentence)
    };
    let image = two_appends(1);
    let empty = format!("the file is empty, so that no result is in it: {AGAIN}");
    assert_eq!(of(b""), (1, empty));
    for length in [1, 255] {
        let short = format!(
            "this is no journal or only the start of one, it has {length} bytes, fewer than a \
             journal's header, so that no result is in it: {AGAIN}, or look for the right file"
        );
        assert_eq!(of(&image[..length]), (1, short));
    }
    let mut long = image.clone();
    long.resize(8_388_609, 0);
    let sentence =
        "the file is longer than the 8 MiB that are read here; its results may be right, \
                    but none of them is read: use journalctl for it";
    assert_eq!(of(&long), (2, sentence.to_string()));
    long.resize(8_500_000, 7);
    assert_eq!(of(&long), (2, sentence.to_string()));
    let mut other = image;
    other[0] = b'l';
    let sentence =
        "this is no journal, its first bytes are not those of one, so that nothing in it \
                    is taken for a result: look for the right file, or copy it again";
    assert_eq!(of(&other), (3, sentence.to_string()));
}

/// 6.
#[test]
fn objects() {
    let example = Example::new("why-objects");
    let so_that = "nothing from there on can be found";
    let no_type = "no object stands at offset 584, where one has to";
    example.told(
        |image| image[584] = 0,
        6,
        "offset 584, UNUSED",
        no_type,
        so_that,
    );
    let flag =
        "the field value at offset 320 says that it is compressed, and the header that none is";
    example.told(|image| image[321] = 4, 6, "offset 320, DATA", flag, so_that);
    let size = "the entry at offset 736 says that it has 81 bytes, as no entry has";
    example.word((744, 81), 6, "offset 736, ENTRY", size, so_that);
    let passes =
        "the entry array at offset 816 says that it has 1099511627776 bytes, and 3280 are left there";
    example.word(
        (824, 1 << 40),
        6,
        "offset 816, ENTRY_ARRAY",
        passes,
        so_that,
    );
    let one_more = |kind: u8, size: u64, tail: u64| {
        move |image: &mut [u8]| {
            image[872] = kind;
            set(image, 880, size);
            set(image, header::TAIL_OBJECT_OFFSET, tail);
        }
    };
    let tag = "the tag at offset 872 says that it has 72 bytes, as no tag has";
    example.told(
        one_more(kind::TAG, 72, 872),
        6,
        "offset 872, TAG",
        tag,
        so_that,
    );
    let other =
        "the object of type 200 at offset 872 says that it has 15 bytes, as no object of type \
                 200 has";
    example.told(one_more(200, 15, 872), 6, "offset 872, 200", other, so_that);
    let rest = "at offset 4088, where an object has to start, only 8 bytes are left";
    let image = one_more(200, 3_216, 4_088);
    example.told(image, 6, "offset 4088, UNUSED", rest, so_that);
}

/// 6, where the header's last object is none.
#[test]
fn a_missed_tail() {
    let example = Example::new("why-tail");
    let so_that = "it can't be told where its results end";
    let none = "its header has the last object at offset 0, and none starts there";
    let at = header::TAIL_OBJECT_OFFSET;
    example.word((at, 0), 6, "the header", none, so_that);
    let inside =
        "its header has the last object at offset 824, and none starts there (the last one \
                  found is the entry array at offset 816)";
    example.word((at, 824), 6, "offset 816, ENTRY_ARRAY", inside, so_that);
}

/// 7.
#[test]
fn tables() {
    let example = Example::new("why-tables");
    let what =
        "its two hash tables do not stand at its start as its header says, or there is a third";
    let so_that = "its fields can't be looked up";
    example.word(
        (header::DATA_HASH_TABLE_OFFSET, 256),
        7,
        "the header",
        what,
        so_that,
    );
}
