//! `newest`: a field's values by their newest entry; and `values`, which is by first appearance.
use crate::person::{append, bytes, file, folder, made, typed};
use crate::two::{both, of_two};
use checks::corpus;
use checks::generator::good::good;
use checks::random::Random;
use reading::image::name_of;
use reading::layout::entry;
use reading::lookup::{open, Journal};
use std::collections::BTreeSet;
use std::path::Path;

const HEADING: &str = "seqnum  local time                                realtime  ";

fn line(seqnum: u64, rest: &str) -> String {
    let time = format!("2023-11-14 22:13:20.00000{seqnum} +0000  170000000000000{seqnum}");
    format!("     {seqnum}  {time}  {rest}\n")
}

/// Lot 7 is tested again after lot 8 came up: the first of `values` is not the newest.
#[test]
fn a_lot_that_is_tested_again() {
    let path = made(&folder("newest"), "one.journal", "65536");
    append(&path, 1, &["LOT=7", "RESULT=good"]).done();
    append(&path, 2, &["LOT=8", "RESULT=bad"]).done();
    append(&path, 3, &["LOT=7", "RESULT=dead"]).done();
    append(&path, 4, &["NOTE=counted"]).done();
    assert_eq!(typed("values", &path, &["LOT"]).done(), "8\n7\n");
    let newest = |words: &[&str]| typed("newest", &path, words).done();
    let lots = [HEADING, "LOT\n", &line(3, "7"), &line(2, "8")].concat();
    assert_eq!(newest(&["LOT"]), lots);
    // With what that entry has besides.
    let results = [
        HEADING,
        "LOT  RESULT\n",
        &line(3, "7    dead"),
        &line(2, "8    bad"),
    ];
    assert_eq!(newest(&["LOT", "--fields", "RESULT"]), results.concat());
    assert_eq!(newest(&["LOT", "--fields", "LOT,RESULT"]), results.concat());
    assert_eq!(newest(&["LOT", "-n", "1", "--no-header"]), line(3, "7"));
    let turned = [line(2, "8"), line(3, "7")].concat();
    assert_eq!(newest(&["LOT", "--reverse", "--no-header"]), turned);
    // As it was at a time.
    let then = ["LOT", "--until", "1700000000000002", "--no-header"];
    assert_eq!(newest(&then), [line(2, "8"), line(1, "7")].concat());

    // Two lots in one entry: each has a line of its own.
    append(&path, 5, &["LOT=9", "LOT=8"]).done();
    let three = [line(5, "8"), line(5, "9"), line(3, "7")].concat();
    assert_eq!(newest(&["LOT", "--no-header"]), three);
    let json = newest(&["LOT", "-n2", "-o", "json"]);
    assert!(json
        .lines()
        .next()
        .expect("a line")
        .ends_with(r#","LOT":"8"}"#));
    assert!(json.ends_with(",\"LOT\":\"9\"}\n"), "{json}");

    let none = typed("newest", &path, &["LO"]).failed_with(&path);
    assert_eq!(none, "no entry with a field LO");
    let none = typed("newest", &path, &["LOT", "--until", "0"]).failed_with(&path);
    let shown = "1970-01-01 00:00:00.000000 +0000 (0)";
    assert_eq!(none, format!("no entry with a field LOT until {shown}"));
}

/// The newest in the stream, whichever file it is from.
#[test]
fn of_two_files() {
    let files = both(&folder("two-newest"), 4);
    let newest = of_two("newest", &files, &["STATE", "-o", "tsv"]).done();
    let rows = newest.lines().map(|line| {
        let cells: Vec<&str> = line.split('\t').collect();
        [cells[0], cells[1], cells[4]]
    });
    let expected = [
        ["file", "seqnum", "STATE"],
        ["2", "7", "lost"],
        ["1", "5", "dead"],
        ["1", "3", "wet"],
        ["1", "1", "sown"],
    ];
    assert_eq!(rows.collect::<Vec<_>>(), expected);
    let none = of_two("newest", &files, &["STAT"]).failed(1);
    assert!(none.ends_with(": no entry with a field STAT"), "{none}");
}

/// Names, whatever bytes they are of.
fn names(journal: &Journal) -> BTreeSet<Vec<u8>> {
    let parts = journal.committed.iter().flat_map(|&it| journal.items(it));
    let name = |payload| name_of(payload).expect("refusal 11 passed").to_vec();
    parts
        .map(|part| name(part.of(journal.image.bytes)))
        .collect()
}

/// Against the independent reading; the number of values.
fn as_the_reading_has_it(path: &Path) -> usize {
    let image = bytes(path);
    let journal = open(&image).expect("it is good");
    let mut count = 0;
    for name in names(&journal) {
        let typed_name: String = name.iter().map(|byte| format!("\\x{byte:02x}")).collect();
        let values = journal.payloads(&name);
        let newest = |payload| *journal.entries_holding(payload).last().expect("an entry");
        let mut offsets: Vec<u64> = values.iter().map(|it| newest(it.of(&image))).collect();
        offsets.sort_by(|one, other| other.cmp(one));
        let seqnums = offsets
            .iter()
            .map(|offset| journal.image.word(offset + entry::SEQNUM).to_string());
        let words = [&*typed_name, "-o", "tsv", "--no-header"];
        let printed = typed("newest", path, &words).done();
        let rows: Vec<(&str, &str)> = printed
            .lines()
            .map(|line| (line.split('\t').next(), line.rsplit('\t').next()))
            .map(|(first, last)| (first.expect("a number"), last.expect("a value")))
            .collect();
        assert!(seqnums.eq(rows.iter().map(|row| row.0)), "{typed_name}");
        let shown = typed("values", path, &[&typed_name]).done();
        let sorted =
            |values: Vec<&str>| BTreeSet::from_iter(values.into_iter().map(str::to_string));
        assert_eq!(
            sorted(rows.iter().map(|row| row.1).collect()),
            sorted(shown.lines().collect())
        );
        assert_eq!(rows.len(), values.len());
        count += rows.len();
    }
    count
}

#[test]
fn good_files() {
    let real = as_the_reading_has_it(&corpus::path("bullseye-k1-c0-online"));
    assert!(real > 60, "{real}");
    let folder = folder("newest-good");
    let mut count = 0;
    for seed in 0..30 {
        let image = good(&mut Random::new(seed + 500)).image;
        count += as_the_reading_has_it(&file(&folder, "good.journal", &image));
    }
    assert!(count > 60, "{count}");
}
