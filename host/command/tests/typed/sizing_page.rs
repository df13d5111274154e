//! The page for those who size cards: what it shows of `room` is what `room` prints, and what files have.
use crate::person::{program, said};
use crate::room_files::{is_right, numbers, room};
use crate::shaped::{word, Field, Shaped};

const PAGE: &str = include_str!("../../../../docs/SIZING.md");

/// The fields of a germination result on the page.
const RESULT: [Field; 4] = [
    ("LOT", 6, Some(200)),
    ("RESULT", 8, Some(4)),
    ("OPERATOR", 10, Some(6)),
    ("MESSAGE", 40, None),
];

/// What stands after the heading.
fn section() -> &'static str {
    let (_, section) = PAGE.split_once("\n## What a file takes\n").expect("it");
    section
}

/// A number as it is written on the page.
fn number(cell: &str) -> u64 {
    cell.trim().replace(',', "").parse().expect("a number")
}

#[test]
fn the_example() {
    let mut block = section()
        .lines()
        .skip_while(|line| !line.starts_with("    "))
        .map_while(|line| line.strip_prefix("    "));
    let typed = block.next().and_then(|line| line.strip_prefix("./run "));
    let words: Vec<&str> = typed.expect("a command").split(' ').collect();
    let shown: String = block.map(|line| format!("{line}\n")).collect();
    assert_eq!(said(program().args(&words)).done(), shown);
    let fields = RESULT.each_ref().map(word);
    assert_eq!(words[..3], ["room", "--entries", "1000"]);
    assert_eq!(words[3..], fields);
}

/// Each row of the table, against a file of 8 MiB as `new` makes it.
#[test]
fn more_of_them() {
    let lines = section().lines().filter(|line| line.starts_with('|'));
    let rows: Vec<Vec<u64>> = lines
        .skip(2)
        .map(|line| line.trim_matches('|').split('|').map(number).collect())
        .collect();
    let counts = rows.iter().map(|row| row[0]);
    assert!(counts.eq([100, 1_000, 10_000]));
    let mut file = Shaped::new(8 << 20, [8_192, 512], 256, &RESULT);
    for row in rows {
        let [entries, bytes, arrays] = row[..] else {
            panic!("{row:?} has three cells");
        };
        file.grow(entries);
        assert_eq!(file.end(), bytes);
        let [.., (_, global, _), (_, of_data, _)] = file.parts();
        assert_eq!(global + of_data, arrays);
        let text = room(entries, &[], &RESULT);
        is_right(&file, &text);
        assert_eq!(numbers(&text, "sum")[1], bytes);
    }
}

/// As many as the page and the command say are taken by a file of 8 MiB, and one more is 18.
#[test]
fn the_most_of_them() {
    let (_, rest) = section()
        .split_once("one of 8 MiB has room for ")
        .expect("it");
    let (count, _) = rest.split_once(" of these results").expect("the number");
    let count = number(count);
    let text = room(1_000_000, &[], &RESULT);
    let line = format!("a file of 8388608 bytes holds {count} such entries");
    assert_eq!(text.lines().last(), Some(&*line));
    let mut file = Shaped::new(8 << 20, [8_192, 512], 256, &RESULT);
    file.grow(count);
    is_right(&file, &room(count, &[], &RESULT));
    let refused = file.batch(1).expect_err("there is no room");
    assert_eq!(refused.refusal.number(), 18);
}

/// "that never counts too little": of 70 entries with 1 to 69 values in turn, with the smallest DATA that has
/// so many.
#[test]
fn without_the_number_of_values() {
    let sum = |values| numbers(&room(70, &[], &[("A", 1, values)]), "sum")[1];
    let most = sum(None);
    assert!((1..70).all(|values| sum(Some(values)) < most));
    // More values alone need not take more: a second array may be saved.
    assert!(sum(Some(14)) < sum(Some(13)));
}
