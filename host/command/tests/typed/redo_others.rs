//! Redo lists that are not of the file as it stands: they are passed over, removed or refused.
use crate::person::{append, asked, bytes, made, Said};
use crate::redo_met::{begun, put};
use crate::tray::{appended, beside, redo_list, results};

/// One from before later entries.
#[test]
fn stale() {
    let (path, before, planned) = begun("redo-stale");
    std::fs::write(&path, &planned.after).expect("a file");
    append(&path, 10, &["A=1"]).done();
    let later = bytes(&path);
    let list = redo_list(&before, &planned.list);
    put(&path, &later, &list);
    let text = asked("check", &path).done();
    let words = "is from before later entries; it is passed over, and the next append removes it\n";
    assert!(
        text.starts_with("opens, 10 entries\n") && text.ends_with(words),
        "{text}"
    );
    for words in [&["--quiet"][..], &[]] {
        put(&path, &later, &list);
        let said = appended(&path, 11, &[], words).done();
        let start = format!(
            "removed {}, which was from before later entries, 1 sync\n",
            beside(&path).display()
        );
        assert_eq!(said.starts_with(&start), words.is_empty(), "{said}");
        assert!(bytes(&path) == later && !beside(&path).exists());
    }
    // Where nothing came after it, it is carried out again, and that changes nothing.
    put(&path, &planned.after, &list);
    appended(&path, 11, &[], &[]).done();
    assert!(bytes(&path) == planned.after && !beside(&path).exists());
}

/// One of another file, of one that is longer, or of a state that the file is not in, is refused to
/// whoever reads and to whoever writes, and nothing changes.
#[test]
fn foreign() {
    let (path, before, planned) = begun("redo-foreign");
    let list = redo_list(&before, &planned.list);
    let other = bytes(&made(
        path.parent().expect("a folder"),
        "other.journal",
        "16384",
    ));
    let new = {
        let mut image = other.clone();
        image[24..40].copy_from_slice(&before[24..40]);
        image
    };
    let longer = [&before[..], &[0; 8]].concat();
    for (image, start) in [
        (&other, "is the redo list of the file with id "),
        (&longer, "is the redo list of a file of 16384 bytes, and this one has 16392"),
        (&new, "is a redo list of this file, but not of the state that it is in: with it the file would be refused (refusal "),
    ] {
        put(&path, image, &list);
        let all: [Said; 4] = [
            asked("list", &path),
            asked("check", &path),
            append(&path, 10, &["A=1"]),
            appended(&path, 10, &results(0, 2), &[]),
        ];
        for said in all {
            let words = said.failed(1);
            let words = words.strip_prefix(&format!("{}: ", beside(&path).display()));
            let words = words.expect("the name of the list");
            assert!(words.starts_with(start), "{words}");
            let end = "; it may be needed to finish that file: move it there, or away";
            assert!(words.ends_with(end), "{words}");
        }
        assert!(bytes(&path) == *image && bytes(&beside(&path)) == list);
    }
}
