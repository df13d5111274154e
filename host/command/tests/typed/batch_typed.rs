//! Batches that are refused and no line of which is to blame, and what is typed wrongly.
use crate::person::{bytes, file, folder, made, program, typed, MACHINE};
use crate::tray::{appended, lines, results, said_to};

/// What is no fault of an entry: 13, 14 and 15, and a doubtful time.
#[test]
fn no_fault_of_a_line() {
    let folder = folder("batch-other-faults");
    let path = made(&folder, "one.journal", "65536");
    let before = bytes(&path);
    let (mut online, mut untidy) = (before.clone(), before.clone());
    online[16] = 1;
    untidy[144] += 1;
    for (image, number) in [(&online, 13), (&untidy, 14)] {
        file(&folder, "one.journal", image);
        assert_eq!(
            appended(&path, 1, &results(0, 3), &[]).refused(&path),
            number
        );
        assert!(bytes(&path) == *image);
    }
    file(&folder, "one.journal", &before);
    let words = ["--batch", "--machine", &MACHINE.replace('2', "3")];
    let words = typed("append", &path, &words);
    // Of no line nothing is asked.
    assert_eq!(
        words.done(),
        "appended 0 entries in 0 batches, 0 stores, 0 syncs\n"
    );
    let text = lines(&results(0, 3));
    let mut command = program();
    command
        .args(["append", "--batch"])
        .arg(&path)
        .args(["--time", "0", "--machine", MACHINE]);
    let words = said_to(&mut command, text.as_bytes()).failed_with(&path);
    assert!(
        words.starts_with("--time 0: journalctl shows no entry of it"),
        "{words}"
    );
    assert!(bytes(&path) == before);
}

/// What is typed wrongly is told before anything is appended.
#[test]
fn typed_wrongly() {
    let folder = folder("batch-typed");
    let path = made(&folder, "one.journal", "65536");
    let before = bytes(&path);
    let name = path.to_str().expect("a name of text");
    let missing = format!("{name}.missing");
    let mut text = lines(&results(0, 40));
    text += "A=a\\b\n";
    for (words, start) in [
        (
            &["append", "--batch", name][..],
            "line 41: a backslash is typed as \\\\ and a byte as \\xNN, ",
        ),
        (
            &["append", "--batch"],
            "the command is append --batch FILE and options",
        ),
        (
            &["append", "--batch", name, "A=1"],
            "the entries of a batch are lines of standard input or of --from",
        ),
        (
            &["append", "--batch", name, "--sync", "never"],
            "--sync never: it is redo, places or end",
        ),
        (
            &["append", "--batch", name, "--sync"],
            "--sync needs a value",
        ),
        (
            &["append", name, "A=1", "--sync", "end"],
            "--sync goes with --batch",
        ),
        (
            &["append", name, "--from", name, "A=1"],
            "--from goes with --batch",
        ),
    ] {
        let said = said_to(program().args(words), text.as_bytes());
        let line = said.failed(2);
        assert!(line.starts_with(start), "{words:?}: {line}");
        assert!(line.ends_with(" (--help tells more)"), "{line}");
    }
    let words = ["--batch", "--from", &missing];
    let words = typed("append", &path, &words).failed(1);
    assert_eq!(words, format!("{missing}: there is no such file or folder"));
    assert!(bytes(&path) == before);
}
