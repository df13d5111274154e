//! A file that gets full in the middle of a text, files that take no entry at all, and texts that are not there.
use crate::banks::{exported, imported, tray};
use crate::person::{append, bytes, checked, file, folder, made, program, typed, BOOT, MACHINE};
use crate::tray::{planned, results, said_to};

/// 18: all that fit are in, and the rest of the text goes to the next file under the same numbers.
#[test]
fn a_full_file() {
    let folder = folder("import-full");
    let path = made(&folder, "one.journal", "10240");
    let new = bytes(&path);
    let text = tray(&results(0, 100)).concat();
    let said = imported(&path, &text, &[]);
    assert_eq!(said.status, Some(5), "{}", said.err);
    let number = |before: &str| {
        let rest = said.err.split_once(before).expect("it is said").1;
        let end = rest.find(|it: char| !it.is_ascii_digit());
        rest[..end.expect("words after it")]
            .parse::<usize>()
            .expect("a number")
    };
    // Not at the end of a batch.
    let bad = number(": entry ");
    assert!(bad > 33 && bad % 32 != 1, "{}", said.err);
    let line = number(" of the text, line ");
    assert_eq!(line, 7 * (bad - 1) + 1);
    assert!(bytes(&path) == planned(&new, 1, &results(0, bad - 1)).after);
    let id = String::from_iter(new[72..88].iter().map(|byte| format!("{byte:02x}")));
    let words = format!(
        " bytes are left: go on in a new one, made with --seqnum-id {id}, from --seqnum {bad} on; the {} \
         entries before it are appended, and nothing from there on (refusal 18: ",
        bad - 1
    );
    assert!(said.err.contains(&words), "{}", said.err);
    let start = format!(
        "appended {} entries, 1 to {}, in 2 batches, ",
        bad - 1,
        bad - 1
    );
    assert!(said.out.starts_with(&start), "{}", said.out);

    let next = folder.join("next.journal");
    let words = [
        "--size=65536",
        "--machine",
        MACHINE,
        "--boot",
        BOOT,
        "--seqnum-id",
        &id,
    ];
    typed("new", &next, &words).done();
    let rest = text.split_inclusive(|&byte| byte == b'\n').skip(line - 1);
    let seqnum = format!("--seqnum={bad}");
    imported(&next, &Vec::from_iter(rest).concat(), &[&seqnum]).done();
    assert_eq!(sorted(&exported(&[&path, &next])), sorted(&text));
}

/// The lines of each entry in another order: a file has the fields of an entry by their places in it.
fn sorted(text: &[u8]) -> Vec<Vec<String>> {
    let text = String::from_utf8(text.to_vec()).expect("it is text");
    let lines = |entry: &str| {
        let mut lines = Vec::from_iter(entry.lines().map(str::to_string));
        lines.sort();
        lines
    };
    text.split_terminator("\n\n").map(lines).collect()
}

/// What is no fault of an entry: 13, 14 and 15, and a file that is none.
#[test]
fn no_fault_of_an_entry() {
    let folder = folder("import-files");
    let path = made(&folder, "one.journal", "65536");
    let before = bytes(&path);
    let text = tray(&results(0, 3)).concat();
    let (mut online, mut untidy) = (before.clone(), before.clone());
    online[16] = 1;
    untidy[144] += 1;
    for (image, number) in [(&online[..], 13), (&untidy, 14), (&before[..300], 5)] {
        file(&folder, "one.journal", image);
        assert_eq!(imported(&path, &text, &[]).refused(&path), number);
        assert!(bytes(&path) == *image);
    }
    file(&folder, "one.journal", &before);
    let mut command = program();
    let said = said_to(command.arg("import").arg(&path), &text);
    let start = format!("the file belongs to machine {MACHINE}, and this is machine ");
    assert!(said.failed_with(&path).starts_with(&start));
    assert!(bytes(&path) == before);
}

/// A journal file in the place of its text.
#[test]
fn no_text() {
    let folder = folder("import-journal");
    let [one, two] = ["one.journal", "two.journal"].map(|name| made(&folder, name, "4096"));
    append(&one, 1, &["A=1"]).done();
    let words = imported(&two, &bytes(&one), &[]).failed_with(&two);
    let start =
        "entry 1 of the text, line 1: this is a journal file, and not the text of one: give what \
                 export prints; nothing is appended (refusal ";
    assert!(words.starts_with(start), "{words}");
    assert_eq!(checked(&two), "opens, 0 entries\n");
}

/// Files that are not there, and a file that another program writes.
#[test]
fn what_can_not_be_read() {
    let folder = folder("import-missing");
    let path = made(&folder, "one.journal", "65536");
    let missing = folder.join("missing");
    let from = format!("--from={}", missing.display());
    let words = imported(&path, b"", &[&from]).failed_with(&missing);
    assert_eq!(words, "there is no such file or folder");
    let text = tray(&results(0, 3)).concat();
    let words = imported(&missing, &text, &[]).failed_with(&missing);
    assert_eq!(words, "there is no such file or folder");
    let other = std::fs::File::open(&path).expect("it is there");
    other.lock().expect("the lock is free");
    let said = imported(&path, &text, &["--wait=0"]);
    assert_eq!(said.status, Some(6), "{}", said.err);
    other.unlock().expect("it was held");
    imported(&path, &text, &["--wait=0"]).done();
    assert_eq!(checked(&path), "opens, 3 entries\n");
}
