//! `list`, `show`, `find` and `values` of two files as one stream, word for word.
use crate::person::{asked, folder, made, typed};
use crate::two::{both, of_two};

const HEADING: &str =
    "file  seqnum  local time                                realtime  fields  MESSAGE\n";

fn line(file: u64, seqnum: u64, rest: &str) -> String {
    let time = format!("2023-11-14 22:13:20.00000{seqnum} +0000  170000000000000{seqnum}");
    format!("   {file}       {seqnum}  {time}       {rest}\n")
}

#[test]
fn of_one_seqnum_id() {
    let files = both(&folder("two-one-id"), 4);
    let rows = [
        line(1, 1, "1"),
        line(2, 2, "1"),
        line(1, 3, "2  counted"),
        line(1, 5, "1"),
        line(2, 7, "1"),
    ];
    let [one, two, three, five, seven] = rows.each_ref().map(String::as_str);
    let table = |rows: &[&str]| [&[HEADING], rows].concat().concat();
    let listed = of_two("list", &files, &[]).done();
    assert_eq!(listed, table(&[one, two, three, five, seven]));

    let found = |words: &[&str]| of_two("find", &files, words).done();
    assert_eq!(found(&["--seqnum", "2"]), table(&[two]));
    assert_eq!(found(&["--seqnum=6"]), table(&[seven]));
    assert_eq!(found(&["--time", "1700000000000004"]), table(&[five]));
    assert_eq!(found(&["--time", "2023-11-14 22:13:20"]), table(&[one]));
    assert_eq!(found(&["--field", "STATE=wet"]), table(&[two, three]));
    assert_eq!(found(&["--field=STATE=lost"]), table(&[seven]));

    let shown = of_two("show", &files, &["3"]).done();
    let expected = "\
file       1
seqnum     3
local time 2023-11-14 22:13:20.000003 +0000
realtime   1700000000000003
monotonic  53
boot id    05050505050505050505050505050505
fields     2
  STATE=wet
  MESSAGE=counted
";
    assert_eq!(shown, expected);
    let shown = of_two("show", &files, &["7"]).done();
    assert!(shown.starts_with("file       2\nseqnum     7\n"), "{shown}");

    // The first file's, by falling DATA offset, and then what only the second has.
    let values = of_two("values", &files, &["STATE"]).done();
    assert_eq!(values, "1  dead\n1  wet\n1  sown\n2  lost\n");
    let [first, second] = files;
    let turned = of_two("values", &[second, first], &["STATE"]).done();
    assert_eq!(turned, "1  lost\n1  wet\n2  dead\n2  sown\n");
}

/// Under two ids entries go by their time, and those that would be equal are both shown.
#[test]
fn of_two_seqnum_ids() {
    let files = both(&folder("two-ids"), 6);
    let list = of_two("list", &files, &[]).done();
    let column = |line: &str| {
        line.split_whitespace()
            .take(2)
            .map(|it| it.parse().expect("a number"))
            .collect::<Vec<u64>>()
    };
    let rows: Vec<Vec<u64>> = list.lines().skip(1).map(column).collect();
    assert_eq!(rows, [[1, 1], [2, 2], [1, 3], [2, 3], [1, 5], [2, 7]]);

    // A number that both have: one after the other, with an empty line between them.
    let shown = of_two("show", &files, &["3"]).done();
    let (one, other) = shown.split_once("\n\n").expect("two entries");
    let (one, other) = (
        one.strip_prefix("file       1\n"),
        other.strip_prefix("file       2\n"),
    );
    assert_eq!(one.map(|it| format!("{it}\n")), other.map(str::to_string));
    let alone = typed("show", &files[0], &["3"]).done();
    assert_eq!(one, alone.strip_suffix('\n'));
    // A file twice is that file.
    let twice = [files[0].clone(), files[0].clone()];
    let list = of_two("list", &twice, &[]).done();
    let lines = list.lines().map(|line| &line[6..]);
    assert!(lines.eq(asked("list", &files[0]).done().lines()));
}

#[test]
fn nothing_found() {
    let files = both(&folder("two-none"), 4);
    let names = format!("{} and {}: ", files[0].display(), files[1].display());
    let none = |name: &str, words: &[&str]| {
        let line = of_two(name, &files, words).failed(1);
        line.strip_prefix(&names).expect("both names").to_string()
    };
    assert_eq!(none("show", &["4"]), "no entry 4; the next one is 5");
    assert_eq!(none("show", &["0"]), "no entry 0; the next one is 1");
    assert_eq!(
        none("show", &["8"]),
        "no entry 8, and none with a higher number"
    );
    assert_eq!(
        none("find", &["--seqnum", "8"]),
        "no entry with a sequence number of 8 or above"
    );
    let time = "no entry at 2023-11-14 22:13:20.000008 +0000 (1700000000000008) or later";
    assert_eq!(none("find", &["--time", "1700000000000008"]), time);
    assert_eq!(
        none("find", &["--field", "STATE=we"]),
        "no entry with STATE=we"
    );
    assert_eq!(none("values", &["STAT"]), "no entry with a field STAT");
    // Two files without entries are listed: there is nothing in them.
    let empty = made(&folder("two-empty"), "empty.journal", "4096");
    let listed = of_two("list", &[empty.clone(), empty], &[]).done();
    let heading = "file  seqnum  local time                        realtime  fields  MESSAGE\n";
    assert_eq!(listed, heading);
}
