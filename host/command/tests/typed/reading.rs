//! `list`, `show`, `find`, `values` and the first line of `check` of good files.
use crate::person::{asked, checked, file, folder, typed};
use checks::corpus::{self, listing, FILES};
use checks::generator::full::full;
use checks::generator::good::good;
use checks::generator::worked::two_appends;
use checks::random::Random;
use reading::layout::entry;
use reading::lookup::open;

const HEADING: &str =
    "             seqnum  local time                                realtime  fields  MESSAGE\n";
const FIRST: &str =
    "9223372036854775807  2023-11-14 22:13:20.000000 +0000  1700000000000000       2  lot 12 due\n";
const SECOND: &str =
    "9223372036854775808  2023-11-14 22:13:20.000001 +0000  1700000000000001       1\n";

#[test]
fn worked_example() {
    let path = file(&folder("worked"), "two.journal", &two_appends(1));
    assert_eq!(checked(&path), "opens, 2 entries\n");
    let both = [HEADING, FIRST, SECOND].concat();
    assert_eq!(asked("list", &path).done(), both);

    let shown = typed("show", &path, &["9223372036854775807"]).done();
    let expected = "\
seqnum     9223372036854775807
local time 2023-11-14 22:13:20.000000 +0000
realtime   1700000000000000
monotonic  50
boot id    05050505050505050505050505050505
fields     2
  MESSAGE=lot 12 due
  PRIORITY=2
";
    assert_eq!(shown, expected);
    let none = typed("show", &path, &["8"]).failed_with(&path);
    assert_eq!(none, "no entry 8; the next one is 9223372036854775807");
    let none = typed("show", &path, &["9223372036854775809"]).failed_with(&path);
    assert_eq!(
        none,
        "no entry 9223372036854775809, and none with a higher number"
    );

    let found = |words: &[&str]| typed("find", &path, words).done();
    let (first, second) = ([HEADING, FIRST].concat(), [HEADING, SECOND].concat());
    assert_eq!(found(&["--seqnum", "0"]), first);
    assert_eq!(found(&["--seqnum=9223372036854775807"]), first);
    assert_eq!(found(&["--seqnum", "9223372036854775808"]), second);
    assert_eq!(found(&["--time", "1700000000000000"]), first);
    assert_eq!(found(&["--time", "2023-11-14 22:13:20"]), first);
    assert_eq!(found(&["--time", "2023-11-14 22:13:20.000001"]), second);
    assert_eq!(found(&["--field", "PRIORITY=2"]), both);
    assert_eq!(found(&["--field=MESSAGE=lot 12 due"]), first);

    let none = |words: &[&str]| typed("find", &path, words).failed_with(&path);
    assert_eq!(
        none(&["--seqnum", "9223372036854775809"]),
        "no entry with a sequence number of 9223372036854775809 or above"
    );
    assert_eq!(
        none(&["--time", "1700000000000002"]),
        "no entry at 2023-11-14 22:13:20.000002 +0000 (1700000000000002) or later"
    );
    assert_eq!(none(&["--field", "PRIORITY=3"]), "no entry with PRIORITY=3");
    assert_eq!(none(&["--field", "PRIORITY="]), "no entry with PRIORITY=");

    assert_eq!(typed("values", &path, &["PRIORITY"]).done(), "2\n");
    let none = typed("values", &path, &["PRIORIT"]).failed_with(&path);
    assert_eq!(none, "no entry with a field PRIORIT");
}

/// The columns that the listings of real files have too: sequence number, wall time, fields.
#[test]
fn real_files() {
    for (name, _) in FILES.into_iter().filter(|&(_, number)| number == 0) {
        let text = asked("list", &corpus::path(name)).done();
        let columns = |line: &str, places: [usize; 3]| {
            let words: Vec<&str> = line.split_whitespace().collect();
            places.map(|place| words[place].to_string())
        };
        let rows = text.lines().skip(1).map(|line| columns(line, [0, 4, 5]));
        let listing = listing(name);
        let (last, listed) = {
            let mut lines: Vec<&str> = listing.lines().skip(1).collect();
            (lines.pop().expect("the number of entries"), lines)
        };
        let expected = listed.iter().map(|line| columns(line, [0, 1, 3]));
        assert_eq!(rows.collect::<Vec<_>>(), expected.collect::<Vec<_>>());
        let checked = checked(&corpus::path(name));
        let count = last.strip_prefix("entries ").expect("a number");
        assert_eq!(checked, format!("opens, {count} entries\n"));
    }
}

/// All payloads and all values of a real file are there, in their order.
#[test]
fn fields_of_a_real_file() {
    let name = "bullseye-k1-c0-online";
    let (path, image) = (corpus::path(name), corpus::image(name));
    let journal = open(&image).expect("it opens");
    let text = |bytes: &[u8]| String::from_utf8(bytes.to_vec()).expect("this file has text alone");
    for &offset in journal.committed.iter().step_by(9) {
        let seqnum = journal.image.word(offset + entry::SEQNUM).to_string();
        let shown = typed("show", &path, &[&seqnum]).done();
        let lines = shown.lines().filter_map(|line| line.strip_prefix("  "));
        let expected = journal.items(offset);
        let expected = expected.iter().map(|part| text(part.of(&image)));
        assert_eq!(lines.collect::<Vec<_>>(), expected.collect::<Vec<_>>());
    }
    for name in ["MESSAGE", "PRIORITY", "_PID", "SYSLOG_IDENTIFIER"] {
        let values = typed("values", &path, &[name]).done();
        let expected = journal.payloads(name.as_bytes());
        assert!(expected.len() > 1);
        let expected: String = expected
            .iter()
            .map(|part| text(part.of(&image))[name.len() + 1..].to_string() + "\n")
            .collect();
        assert_eq!(values, expected);
    }
}

/// Files of every good kind, of which many have names and values that are no text.
#[test]
fn good_files() {
    let folder = folder("good");
    for seed in 0..40 {
        let image = good(&mut Random::new(seed)).image;
        let journal = open(&image).expect("it is good");
        let path = file(&folder, "good.journal", &image);
        let listed = asked("list", &path).done();
        assert_eq!(listed.lines().count(), 1 + journal.committed.len());
        for (line, &offset) in listed.lines().skip(1).zip(&journal.committed) {
            let seqnum = journal.image.word(offset + entry::SEQNUM).to_string();
            assert_eq!(line.split_whitespace().next(), Some(&*seqnum));
            let shown = typed("show", &path, &[&seqnum]).done();
            assert_eq!(shown.lines().count(), 6 + journal.items(offset).len());
        }
    }
}

/// 20,000 entries in a file of nearly the greatest length.
#[test]
fn a_long_file() {
    let image = full(&[20_000], true, 6_400_000);
    assert!(8_300_000 < image.len() && image.len() <= 8_388_608);
    let path = file(&folder("long"), "long.journal", &image);
    assert_eq!(checked(&path), "opens, 20000 entries\n");
    let listed = asked("list", &path).done();
    assert_eq!(listed.lines().count(), 20_001);
    let held = typed("find", &path, &["--field", "A=1"]).done();
    assert_eq!(held, listed);
    let last = typed("find", &path, &["--seqnum", "20000"]).done();
    assert_eq!(last.lines().nth(1), listed.lines().last());
}
