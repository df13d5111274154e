//! `--fields`, `--no-header` and the forms for other programs, word for word.
use crate::person::{append, asked, folder, made, typed};
use crate::two::{both, of_two};
use std::path::PathBuf;

const FRONT: &str = "seqnum  local time                                realtime  ";

/// The columns before the fields, in a table.
fn front(seqnum: u64) -> String {
    let time = format!("2023-11-14 22:13:20.00000{seqnum} +0000  170000000000000{seqnum}");
    format!("     {seqnum}  {time}  ")
}

/// The same with one character between them.
fn cells(seqnum: u64, between: &str) -> String {
    [
        &*seqnum.to_string(),
        &format!("2023-11-14 22:13:20.00000{seqnum} +0000"),
        &format!("170000000000000{seqnum}"),
    ]
    .join(between)
}

/// Fields that are there, empty, missing, repeated, and hard to separate.
fn lots(name: &str) -> PathBuf {
    let path = made(&folder(name), "one.journal", "65536");
    append(
        &path,
        1,
        &["LOT=7", "RESULT=good, \"dry\"", "MESSAGE=counted"],
    )
    .done();
    append(&path, 2, &["LOT=12", "LOT=13", "RESULT=a\tb\nc\\d"]).done();
    append(&path, 3, &["LOT=", "MESSAGE=one", "MESSAGE=two"]).done();
    append(&path, 4, &["RESULT=bad"]).done();
    path
}

#[test]
fn columns() {
    let path = lots("columns");
    let listed = |words: &[&str]| typed("list", &path, words).done();
    let table = [
        [FRONT, "LOT     RESULT\n"].concat(),
        front(1) + "7       good, \"dry\"\n",
        front(2) + "12\\|13  a\\x09b\\x0ac\\\\d\n",
        front(3) + "\n",
        front(4) + "        bad\n",
    ];
    assert_eq!(listed(&["--fields", "LOT,RESULT"]), table.concat());
    assert_eq!(
        listed(&["--fields=LOT,RESULT", "--no-header"]),
        table[1..].concat()
    );
    assert_eq!(
        listed(&["-o", "table", "--fields", "L\\x4fT,RESULT"]),
        table.concat()
    );
    let found = typed("find", &path, &["--field", "LOT=13", "--fields", "RESULT"]).done();
    let expected = [FRONT, "RESULT\n", &front(2), "a\\x09b\\x0ac\\\\d\n"].concat();
    assert_eq!(found, expected);
    // By a number or a time too, and of no entries.
    let found = typed("find", &path, &["--seqnum", "4", "--fields", "NONE,RESULT"]).done();
    assert_eq!(
        found,
        [FRONT, "NONE  RESULT\n", &front(4), "      bad\n"].concat()
    );
    let none = listed(&["-n0", "--fields", "LOT"]);
    assert_eq!(
        none,
        "seqnum  local time                        realtime  LOT\n"
    );
    // Without --fields, the heading alone is missing.
    let whole = asked("list", &path).done();
    let (_, rest) = whole.split_once('\n').expect("a heading");
    assert_eq!(listed(&["--no-header"]), rest);
}

#[test]
fn tsv() {
    let path = lots("tsv");
    let listed = |words: &[&str]| typed("list", &path, words).done();
    let row = |seqnum: u64, rest: &str| format!("{}\t{rest}\n", cells(seqnum, "\t"));
    let expected = [
        "seqnum\tlocal time\trealtime\tLOT\tRESULT\n",
        &row(1, "7\tgood, \"dry\""),
        &row(2, "12\\|13\ta\\x09b\\x0ac\\\\d"),
        &row(3, "\t"),
        &row(4, "\tbad"),
    ];
    let words = ["-o", "tsv", "--fields", "LOT,RESULT"];
    assert_eq!(listed(&words), expected.concat());
    let plain = listed(&["-otsv", "--no-header", "-n1"]);
    assert_eq!(plain, row(4, "1\t"));
    let plain = listed(&["-o", "tsv", "-n", "2"]);
    assert!(plain.starts_with("seqnum\tlocal time\trealtime\tfields\tMESSAGE\n"));
    assert!(plain.contains(&row(3, "3\tone")), "{plain}");
}

#[test]
fn csv() {
    let path = lots("csv");
    let row = |seqnum: u64, rest: &str| format!("{},{rest}\n", cells(seqnum, ","));
    let expected = [
        "seqnum,local time,realtime,LOT,RESULT\n",
        &row(1, "7,\"good, \"\"dry\"\"\""),
        &row(2, "12\\|13,a\\x09b\\x0ac\\\\d"),
        &row(3, ","),
        &row(4, ",bad"),
    ];
    let words = ["-o", "csv", "--fields", "LOT,RESULT"];
    assert_eq!(typed("list", &path, &words).done(), expected.concat());
}

/// Of two files the number of the file is first.
#[test]
fn of_two_files() {
    let files = both(&folder("two-forms"), 4);
    let words = [
        "--field",
        "STATE=wet",
        "-o",
        "csv",
        "--fields",
        "MESSAGE,STATE",
    ];
    let found = of_two("find", &files, &words).done();
    let expected = [
        "file,seqnum,local time,realtime,MESSAGE,STATE\n",
        &format!("2,{},,wet\n", cells(2, ",")),
        &format!("1,{},counted,wet\n", cells(3, ",")),
    ];
    assert_eq!(found, expected.concat());
    let listed = of_two("list", &files, &["-n", "1", "--fields", "STATE"]).done();
    let expected = ["file  ", FRONT, "STATE\n   2  ", &front(7), "lost\n"];
    assert_eq!(listed, expected.concat());
}

#[test]
fn typed_wrongly() {
    let path = made(&folder("forms-wrong"), "one.journal", "4096");
    let wrong = |words: &[&str]| typed("list", &path, words).failed(2);
    for (words, start) in [
        (
            &["-o", "xml"][..],
            "-o xml: it is table, tsv, csv or json (",
        ),
        (&["-o", ""], "-o : it is table, tsv, csv or json ("),
        (&["-o"], "-o needs a value"),
        (&["-x"], "no option -x"),
        (&["--fields", ""], "--fields : a name is missing ("),
        (
            &["--fields", "LOT,,A"],
            "--fields LOT,,A: a name is missing (",
        ),
        (&["--fields", "LOT=7"], "--fields LOT=7: a name has no = ("),
        (
            &["--fields", "A\\B"],
            "--fields A\\\\B: a backslash is typed as ",
        ),
        (
            &["--fields", "A", "--fields", "B"],
            "--fields is given twice",
        ),
        (&["--no-header=1"], "--no-header has no value"),
        (
            &["--no-header", "--no-header"],
            "--no-header is given twice",
        ),
    ] {
        let line = wrong(words);
        assert!(line.starts_with(start), "{words:?}: {line}");
    }
}
