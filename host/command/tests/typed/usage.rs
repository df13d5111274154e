//! What is not typed as it has to be.
use crate::person::{bytes, folder, made, program, said};

/// Each is one line with status 2, and no file comes or changes.
#[test]
fn wrong_words() {
    let folder = folder("usage");
    let path = made(&folder, "one.journal", "4096");
    let before = bytes(&path);
    let file = path.to_str().expect("a name of text");
    let absent = folder.join("absent.journal");
    let other = absent.to_str().expect("a name of text");
    let id = "0123456789abcdef0123456789abcde";
    let wrong: &[(&[&str], &str)] = &[
        (&[], "a command is missing"),
        (&["remove", file], "no command remove"),
        (&["list"], "the command is list FILE [FILE2]"),
        (
            &["list", file, file, file],
            "the command is list FILE [FILE2]",
        ),
        (&["list", file, "--all"], "no option --all"),
        (&["list", "-"], "no option -"),
        (&["show"], "the command is show FILE [FILE2] SEQNUM"),
        (&["show", file], "the command is show FILE [FILE2] SEQNUM"),
        (
            &["show", file, file, file, "1"],
            "the command is show FILE [FILE2] SEQNUM",
        ),
        (&["show", file, "one"], "SEQNUM one: no number"),
        (&["show", file, file, "one"], "SEQNUM one: no number"),
        (&["show", file, ""], "SEQNUM : no number"),
        (&["show", file, "+1"], "SEQNUM +1: no number"),
        (
            &["show", file, "18446744073709551616"],
            "SEQNUM 18446744073709551616: above 2^64 - 1",
        ),
        (
            &["find", "--seqnum", "1"],
            "the command is find FILE [FILE2] and one of ",
        ),
        (
            &["find", file],
            "the command is find FILE [FILE2] and one of ",
        ),
        (
            &["find", file, file],
            "the command is find FILE [FILE2] and one of ",
        ),
        (
            &["find", file, file, file, "--seqnum", "1"],
            "the command is find FILE [FILE2] and one of ",
        ),
        (
            &["find", file, "--seqnum", "1", "--time", "1"],
            "the command is find FILE [FILE2] and one of ",
        ),
        (&["find", file, "--seqnum"], "--seqnum needs a value"),
        (
            &["find", file, "--seqnum", "1", "--seqnum=2"],
            "--seqnum is given twice",
        ),
        (&["find", file, "--field", "A"], "--field A: no NAME=VALUE"),
        (&["values", file], "the command is values FILE [FILE2] NAME"),
        (
            &["values", file, file, file, "A"],
            "the command is values FILE [FILE2] NAME",
        ),
        (&["newest", file], "the command is newest FILE [FILE2] NAME"),
        (
            &["newest", file, "A\\"],
            "NAME A\\\\: a backslash is typed as ",
        ),
        (
            &["values", file, "\\x4"],
            "NAME \\\\x4: a backslash is typed as ",
        ),
        (&["export"], "the command is export FILE [FILE2] ("),
        (
            &["export", file, file, file],
            "the command is export FILE [FILE2] (",
        ),
        (&["export", file, "-n", "1"], "no option -n ("),
        (&["check"], "the command is check FILE ("),
        (&["check", file, file], "the command is check FILE ("),
        (&["why"], "the command is why FILE ("),
        (&["why", file, file], "the command is why FILE ("),
        (&["why", file, "-o", "tsv"], "-o tsv: it is json ("),
        (&["why", file, "--no-header"], "no option --no-header ("),
        (&["foreign"], "the command is foreign FILE ("),
        (&["foreign", file, file], "the command is foreign FILE ("),
        (&["foreign", file, "--fields", "A"], "no option --fields"),
        (&["foreign", file, "-n", "1"], "no option -n"),
        (
            &["foreign", file, "-o", "xml"],
            "-o xml: it is table, tsv, csv or json (",
        ),
        (
            &["room"],
            "the command is room --entries N NAME=BYTES[/VALUES] .. and ",
        ),
        (
            &["room", "A=1"],
            "the command is room --entries N NAME=BYTES[/VALUES] .. and ",
        ),
        (&["room", "--entries", "9", "-o", "tsv"], "no option -o"),
        (&["new"], "the command is new FILE and options"),
        (
            &["new", other, other],
            "the command is new FILE and options",
        ),
        (
            &["new", other, "--size", "1k"],
            "--size 1k: no size: it is ",
        ),
        (&["new", other, "--size", "M"], "--size M: no size: it is "),
        (
            &["new", other, "--size", "8MK"],
            "--size 8MK: no size: it is ",
        ),
        (
            &["new", other, "--size", "17592186044416M"],
            "--size 17592186044416M: above 2^64 - 1",
        ),
        (
            &["new", other, "--header-size", "long"],
            "--header-size long: no number",
        ),
        (&["new", other, "--wait", "1"], "no option --wait"),
        (&["new", other, "--anyway"], "no option --anyway"),
        (
            &["new", other, "--seqnum-id", id],
            "--seqnum-id 0123456789abcdef0123456789abcde: no id of 32 ",
        ),
        (&["new", other, "--keyed"], "no option --keyed"),
        (
            &["new", other, "--machine", id],
            "--machine 0123456789abcdef0123456789abcde: no id of 32 ",
        ),
        (
            &["new", other, "--boot", &format!("{id}-")],
            "--boot 0123456789abcdef0123456789abcde-: no id of 32 ",
        ),
        (
            &["new", other, "--boot", &format!("+{id}")],
            "--boot +0123456789abcdef0123456789abcde: no id of 32 ",
        ),
        (
            &["append"],
            "the command is append FILE, options and fields",
        ),
        (&["append", file], "a field NAME=VALUE is missing"),
        (
            &["append", file, "--monotonic", "-1", "A=1"],
            "--monotonic -1: no number",
        ),
        (
            &["append", file, "--wait", "soon", "A=1"],
            "--wait soon: no number",
        ),
        (&["import"], "the command is import FILE and options ("),
        (
            &["import", file, "A=1"],
            "the command is import FILE and options (",
        ),
        (&["import", file, "--time", "1"], "no option --time ("),
        (&["import", file, "--anyway"], "no option --anyway ("),
        (
            &["import", file, "--sync", "no"],
            "--sync no: it is redo, places or end (",
        ),
        (&["copy", file], "the command is copy FILE TO ("),
        (
            &["copy", file, other, other],
            "the command is copy FILE TO (",
        ),
    ];
    for (words, start) in wrong {
        let line = said(program().args(*words)).failed(2);
        assert!(line.starts_with(start), "{words:?}: {line}");
        assert!(line.ends_with(" (--help tells more)"), "{words:?}: {line}");
    }
    assert_eq!(bytes(&path), before);
    assert!(!absent.exists());
}

/// After `--` stands what looks like an option.
#[test]
fn a_file_named_like_an_option() {
    let folder = folder("dashes");
    let new = ["new", "--size", "4096", "--", "-one.journal"];
    said(program().args(new).current_dir(&folder)).done();
    let check = ["check", "--", "-one.journal"];
    let checked = said(program().args(check).current_dir(&folder)).done();
    assert!(checked.starts_with("opens, 0 entries\n"), "{checked}");
}
