//! How `--plain` is typed: before the command, and only before those that have it.
use crate::person::{append, folder, made, program, said, typed};
use crate::plain::{plainly, COMMANDS};
use checks::generator::frame::set;
use reading::image::le64;
use reading::layout::header;

#[test]
fn typed_wrongly() {
    let folder = folder("plain-typed");
    let path = made(&folder, "one.journal", "4096");
    append(&path, 1, &["A=1"]).done();
    let file = path.to_str().expect("a name of text");
    let others = "--plain goes with list, find and values (";
    let two = "--plain reads one file, and not two (";
    let before = "--plain stands before the command (";
    let wrong: &[(&[&str], &str)] = &[
        (&["--plain"], "a command is missing ("),
        (&["--plain", "show", file, "1"], others),
        (&["--plain", "newest", file, "A"], others),
        (&["--plain", "check", file], others),
        (&["--plain", "foreign", file], others),
        (&["--plain", "append", file, "A=2"], others),
        (&["--plain", "new", &format!("{file}2")], others),
        (&["--plain", "copy", file, &format!("{file}2")], others),
        (&["--plain", "--version"], others),
        (&["--plain", "list", file, file], two),
        (&["--plain", "find", file, file, "--seqnum", "1"], two),
        (&["--plain", "values", file, file, "A"], two),
        (
            &["--plain", "--plain", "list", file],
            "--plain is given twice (",
        ),
        (&["list", "--plain", file], before),
        (&["find", file, "--seqnum", "1", "--plain"], before),
        (&["values", file, "A", "--plain"], before),
        (&["append", file, "--plain", "A=2"], before),
        (&["--plain=1", "list", file], "no command --plain=1 ("),
        (&["--plain", "remove", file], "no command remove ("),
        (&["--plain", "list"], "the command is list FILE [FILE2] ("),
        (&["--plain", "list", file, "--all"], "no option --all ("),
    ];
    let image = std::fs::read(&path).expect("it is there");
    for (words, start) in wrong {
        let line = said(program().args(*words)).failed(2);
        assert!(line.starts_with(start), "{words:?}: {line}");
        assert!(line.ends_with(" (--help tells more)"), "{words:?}: {line}");
    }
    // Nothing was made and nothing changed.
    assert!(std::fs::read(&path).expect("it is there") == image);
    let files = std::fs::read_dir(&folder).expect("a folder").count();
    assert_eq!(files, 1);
    // After `--` it is a name.
    let absent = said(program().args(["list", "--", "--plain"]));
    assert!(absent
        .failed(1)
        .starts_with("--plain: there is no such file"));
}

/// 14 is status 3 here, with the whole row of the rules; without --plain the file is read, and an append
/// is refused with status 4.
#[test]
fn a_wrong_counter() {
    let path = made(&folder("plain-14"), "one.journal", "4096");
    append(&path, 5, &["A=1"]).done();
    let listed = typed::<&str>("list", &path, &[]).done();
    assert_eq!(plainly::<&str>("list", &path, &[]).done(), listed);
    let mut image = std::fs::read(&path).expect("it is there");
    let is = le64(&image, header::N_OBJECTS);
    set(&mut image, header::N_OBJECTS, is + 1);
    std::fs::write(&path, &image).expect("it is ours");
    assert_eq!(typed::<&str>("list", &path, &[]).done(), listed);
    assert_eq!(append(&path, 6, &["A=1"]).refused(&path), 14);
    let row = wrapper::Refusal::new(14).expect("a number").rule();
    let expected = format!(
        "{}: the file's counters or indexes do not agree with its entries, as after an append that was \
         cut off, and the plain reader takes no such file: read it without --plain ({row})",
        path.display()
    );
    for (name, words) in COMMANDS.iter().zip([&[][..], &["--time", "1"], &["A"]]) {
        assert_eq!(plainly(name, &path, words).failed(3), expected);
    }
    // What is asked for plays no part.
    assert_eq!(plainly("values", &path, &["B"]).failed(3), expected);
    let words = ["--field", "B=1", "--field", "C=1"];
    assert_eq!(plainly("find", &path, &words).failed(3), expected);
}

#[test]
fn helped() {
    let text = |words: &[&str]| said(program().args(words)).done();
    let all = text(&["--help"]);
    assert!(all.contains("\n  --plain COMMAND  "), "{all}");
    assert_eq!(text(&["--plain", "--help"]), all);
    for command in COMMANDS {
        let own = text(&["help", command]);
        assert!(own.contains("\nWith --plain before the command: "), "{own}");
        assert!(own.contains("It is slow: the file is judged anew for each answer"));
        assert_eq!(text(&["--plain", command, "--help"]), own);
        assert_eq!(text(&["--plain", "help", command]), own);
    }
    for command in [
        "show", "newest", "check", "why", "foreign", "new", "append", "copy",
    ] {
        assert!(!text(&["help", command]).contains("--plain"), "{command}");
    }
}
