//! `room` as it is typed.
use crate::person::{program, said, Said};

fn room(words: &[&str]) -> Said {
    said(program().arg("room").args(words))
}

/// The first append of the rules' worked example, which ends at 736.
#[test]
fn word_for_word() {
    let cells = ["--data-cells=1", "--field-cells=1"];
    let words = [&["--entries", "1", "MESSAGE=10", "PRIORITY=1"][..], &cells].concat();
    let table = "\
part               objects  bytes  room  at most
header and tables        2    320
DATA                     2    168
FIELD                    2     96
ENTRY                    1     96
global arrays            1     56     4        4
arrays of DATA           0      0     0        0
sum                      8    736
";
    assert_eq!(room(&words).done(), table);
    // Up to its end a file may be full.
    let sized = |size: &str| room(&[&words[..], &["--size", size]].concat()).done();
    assert_eq!(sized("736"), table);
    let none = format!("{table}a file of 728 bytes holds 0 such entries\n");
    assert_eq!(sized("728"), none);
}

/// Values that come in turn: of 7 entries two values are held by 3 and 4, and each has an array.
#[test]
fn in_turn() {
    let words = ["--entries=7", "--size=4K", "--header-size=272", "STATE=8/2"];
    let table = "\
part               objects  bytes  room  at most
header and tables        2    384
DATA                     2    160
FIELD                    1     48
ENTRY                    7    560
global arrays            2    144    12       16
arrays of DATA           2    112     8       14
sum                     16   1408
";
    assert_eq!(room(&words).done(), table);
}

/// What is chosen is what `new` chooses, and more values than entries are as many as entries.
#[test]
fn as_new_chooses() {
    let plain = room(&["--entries", "50", "A=3", "B=2/7"]).done();
    for words in [
        &["--size", "8M"][..],
        &["--size=8388608", "--data-cells=8192", "--field-cells=512"],
        &["--header-size", "256"],
    ] {
        let words = [&["--entries", "50", "A=3", "B=2/7"][..], words].concat();
        assert_eq!(room(&words).done(), plain);
    }
    for values in ["A=3/50", "A=3/51", "A=3/16777216"] {
        assert_eq!(room(&["--entries", "50", values, "B=2/7"]).done(), plain);
    }
    assert_ne!(room(&["--entries", "50", "A=3/49", "B=2/7"]).done(), plain);
    let small = room(&["--entries", "1", "--size", "64K", "A=3"]).done();
    let tables = 256 + 32 + 16 * (64 + 4);
    let line = format!("header and tables        2   {tables}");
    assert_eq!(small.lines().nth(1), Some(&*line));
}

/// The greatest number that can be typed: each entry is of 80 bytes, and an item of an array.
#[test]
fn as_many_as_can_be_typed() {
    let most = u64::MAX.to_string();
    let text = room(&["--entries", &most, "A=0/1"]).done();
    let line = |start: &str| {
        let line = text.lines().find(|line| line.starts_with(start));
        Vec::from_iter(line.expect("a line").split_whitespace().map(String::from))
    };
    let entries = u128::from(u64::MAX);
    assert_eq!(
        line("ENTRY")[1..],
        [entries, 80 * entries].map(|it| it.to_string())
    );
    // 14 arrays up to 32,768 items, and then as many of 65,536 as are needed.
    let first = 65_532;
    let greatest = (entries - first).div_ceil(65_536);
    let room = first + 65_536 * greatest;
    let bytes = 24 * (14 + greatest) + 8 * room;
    let arrays = [14 + greatest, bytes, room, 2 * entries + 2].map(|it| it.to_string());
    assert_eq!(line("global")[2..], arrays);
    let last = text.lines().last().expect("a line");
    assert_eq!(last, "a file of 8388608 bytes holds 76889 such entries");
}

/// Each is one line with status 2.
#[test]
fn typed_wrongly() {
    let long = format!("{}=1", "A".repeat(65));
    let name = "a name is 1 to 64 of A-Z, 0-9 and _, and starts with no digit (";
    let form = "a field is typed here as NAME=BYTES or NAME=BYTES/VALUES (";
    for (word, why) in [
        ("A", form),
        ("A=1/2/3", form),
        ("A=", "no number ("),
        ("A=x", "no number ("),
        ("A=1/", "no number ("),
        ("A=1/x", "no number ("),
        ("A=-1", "no number ("),
        ("A=18446744073709551616", "above 2^64 - 1 ("),
        ("=1", name),
        ("a=1", name),
        ("7A=1", name),
        ("A-B=1", name),
        (&long, name),
        (
            "A=4095",
            "a field has at most 4096 bytes with its name and the =, so this value 4094 (",
        ),
        (
            "LOT=18446744073709551615",
            "a field has at most 4096 bytes with its name ",
        ),
        ("A=1/0", "a field has at least one value ("),
        (
            "A=0",
            "9 different values are wanted, and with 0 bytes there are 1 (",
        ),
        (
            "A=0/2",
            "2 different values are wanted, and with 0 bytes there are 1 (",
        ),
        (
            "A=1/257",
            "257 different values are wanted, and with 1 byte there are 256 (",
        ),
        (
            "A=7/72057594037927937",
            "72057594037927937 different values are wanted, ",
        ),
    ] {
        let line = room(&["--entries", "9", "B=1", word]).failed(2);
        let start = format!("field {word}: {why}");
        assert!(line.starts_with(&start), "{line}");
    }
    // The most of each is taken.
    for word in [
        "A=1/256",
        "A=0/1",
        "A=4094",
        "A=7/72057594037927936",
        "A=8/18446744073709551615",
    ] {
        room(&["--entries", "9", "B=1", word]).done();
    }
    let many = Vec::from_iter((1..=65).map(|n| format!("A{n}=1/1")));
    let many = Vec::from_iter(
        ["--entries", "1"]
            .into_iter()
            .chain(many.iter().map(|it| &**it)),
    );
    room(&many[..66]).done();
    for (words, start) in [
        (&many[..], "65 fields are given: an entry takes 64 ("),
        (&["--entries", "1"], "a field NAME=BYTES is missing ("),
        (
            &["--entries", "1", "A=1", "B=1", "A=2"],
            "the field A is given twice (",
        ),
        (
            &["--entries", "0", "A=1"],
            "--entries 0: at least one is counted (",
        ),
        (&["--entries", "x", "A=1"], "--entries x: no number ("),
        (
            &["--entries", "1", "--header-size", "264", "A=1"],
            "--header-size 264: a file is made with 256 or 272 (",
        ),
        (
            &["--entries", "1", "--size", "9M", "A=1"],
            "--size 9437184: a file has at most 8M, ",
        ),
        (
            &["--entries", "1", "--data-cells", "0", "A=1"],
            "--data-cells 0: a file has 1 to 65536 of them (",
        ),
    ] {
        let line = room(words).failed(2);
        assert!(line.starts_with(start), "{line}");
        assert!(line.ends_with(" (--help tells more)"), "{line}");
    }
}
