//! What is said of a file that is refused: by `check` in several lines, by every other command in one,
//! and by `why` as facts.
use crate::person::{append, asked, bytes, file, program, said, typed, Said};
use crate::plain::plainly;
use crate::two::of_two;
use std::path::Path;
use wrapper::{Place, Refusal, Why, WrongHash};

/// What `check` says, taken apart.
#[derive(Debug, PartialEq, Eq)]
pub struct InFull {
    pub sentence: String,
    pub number: u64,
    pub rule: String,
    pub place: String,
    /// The one that is stored, and the right one.
    pub hashes: Option<[String; 2]>,
}

/// What `check` says of a file; it prints nothing, and its status is 3.
pub fn in_full(path: &Path) -> InFull {
    let Said { out, err, status } = asked("check", path);
    assert_eq!((status, &*out), (Some(3), ""), "{err}");
    let start = format!("journal: {}: ", path.display());
    let text = err.strip_prefix(&start).expect("its name and the file's");
    let text = text.strip_suffix('\n').expect("whole lines");
    let lines = Vec::from_iter(text.split('\n'));
    let none = |line: &&str| line.contains(|it: char| it.is_control());
    assert!(!lines.iter().any(none), "{text}");
    let after = |line: &str, start: &str| {
        let rest = line.strip_prefix(start);
        rest.unwrap_or_else(|| panic!("{line}")).to_string()
    };
    let hashes = match lines[3..] {
        [] => None,
        [stored, right] => Some([after(stored, "stored hash: "), after(right, "right hash: ")]),
        _ => panic!("{text}"),
    };
    let rule = after(lines[1], "refusal ");
    let (number, rule) = rule.split_once(": ").expect("a number, and words");
    InFull {
        sentence: lines[0].to_string(),
        number: number.parse().expect("a number"),
        rule: rule.to_string(),
        place: after(lines[2], "place: "),
        hashes,
    }
}

/// What `why` prints.
pub fn facts(path: &Path) -> String {
    asked("why", path).done()
}

/// What `check` and `why` have to say by what the library does.
fn as_the_library_has_it(image: &[u8], why: &Why) -> (String, String) {
    let kind = |at: u64| match image[at as usize] {
        0 => "UNUSED".to_string(),
        1 => "DATA".to_string(),
        2 => "FIELD".to_string(),
        3 => "ENTRY".to_string(),
        4 => "DATA_HASH_TABLE".to_string(),
        5 => "FIELD_HASH_TABLE".to_string(),
        6 => "ENTRY_ARRAY".to_string(),
        7 => "TAG".to_string(),
        other => other.to_string(),
    };
    let (place, facts) = match why.place {
        Place::Header => (
            "the header".to_string(),
            "place 0\nobject header\n".to_string(),
        ),
        Place::Object(at) => {
            let (at, kind) = (at.0, kind(at.0));
            (
                format!("offset {at}, {kind}"),
                format!("place {at}\nobject {kind}\n"),
            )
        }
        Place::Position(index) => (
            format!("entry number {} of the file", index + 1),
            format!("position {index}\n"),
        ),
    };
    let (number, rule) = (why.refusal.number(), why.refusal.row());
    let mut facts = format!("refusal {number}\nrule {rule}\n{facts}");
    if let Some(WrongHash { stored, right }) = why.hash {
        facts += &format!("stored {stored:016x}\nright {right:016x}\n");
    }
    (place, facts)
}

/// What `check` says of a file that is refused, after every other command has said the same sentence, in
/// one line with the number and the rule, and `why` the same facts. The file has its bytes.
pub fn everyone(path: &Path) -> InFull {
    let (image, full) = (bytes(path), in_full(path));
    let InFull {
        sentence,
        number,
        rule,
        ..
    } = &full;
    let row = Refusal::new(*number).expect("not 0").row();
    assert_eq!(rule, row);
    let line = format!("{sentence} (refusal {number}: {rule})");
    let folder = path.parent().expect("a folder");
    let results = file(folder, "results.txt", b"A=1\n");
    let results = results.to_str().expect("a name of text");
    let others = [
        asked("list", path),
        asked("foreign", path),
        typed("list", path, &["-o", "json"]),
        typed("show", path, &["1"]),
        typed("show", path, &["last"]),
        typed("find", path, &["--seqnum", "1"]),
        typed("find", path, &["--time", "1"]),
        typed("find", path, &["--field", "A=1"]),
        typed("values", path, &["A"]),
        typed("newest", path, &["A"]),
        plainly::<&str>("list", path, &[]),
        plainly("find", path, &["--seqnum", "1"]),
        plainly("find", path, &["--time", "1"]),
        plainly("find", path, &["--field", "A=1"]),
        plainly("values", path, &["A"]),
        of_two("list", &[path.into(), path.into()], &[]),
        of_two("values", &[path.into(), path.into()], &["A"]),
        append(path, 1, &["A=1"]),
        said(
            program()
                .args(["append", "--batch", "--from", results])
                .arg(path),
        ),
    ];
    for other in others {
        assert_eq!(other.failed_with(path), line);
    }
    let judged = &image[..image.len().min(8_388_609)];
    let why = wrapper::why(judged).expect("it is refused");
    assert_eq!(why.refusal.number(), *number);
    let (place, facts_of_it) = as_the_library_has_it(judged, &why);
    assert_eq!(full.place, place);
    assert_eq!(facts(path), facts_of_it);
    let hash = |hash: WrongHash| [hash.stored, hash.right].map(|it| format!("{it:016x}"));
    assert_eq!(full.hashes, why.hash.map(hash));
    assert!(bytes(path) == image);
    full
}
