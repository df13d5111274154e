//! Foreign objects: `foreign` lists them, `check` counts them, and nothing else shows them.
use crate::person::{append, asked, bytes, file, folder, made, typed, MACHINE};
use checks::corpus::{self, FILES};
use checks::generator::foreign::put;
use checks::generator::good::good;
use checks::generator::worked::two_appends;
use checks::random::Random;
use reading::lookup::open;
use std::collections::BTreeMap;
use std::path::{Path, PathBuf};

/// A file of the program with an entry, three foreign objects, and an entry.
fn with_three(name: &str) -> PathBuf {
    let folder = folder(name);
    let path = made(&folder, "one.journal", "4096");
    append(&path, 1, &["LOT=7"]).done();
    let mut image = bytes(&path);
    for (kind, size) in [(200, 16), (9, 33), (9, 24)] {
        put(&mut image, kind, size).expect("room");
    }
    let path = file(&folder, "one.journal", &image);
    append(&path, 2, &["LOT=8"]).done();
    path
}

/// What `check` says after the lines that it has of every file.
fn checked(path: &Path) -> String {
    let text = asked("check", path).done();
    text.split_inclusive('\n').skip(4).collect()
}

#[test]
fn word_for_word() {
    let path = with_three("foreign-words");
    let table = "offset  type\n   624   200\n   640     9\n   680     9\n";
    assert_eq!(asked("foreign", &path).done(), table);
    let (heading, rows) = table.split_at(13);
    assert_eq!(typed("foreign", &path, &["--no-header"]).done(), rows);
    assert_eq!(typed("foreign", &path, &["-o", "table"]).done(), table);
    let listed = |form: &str| typed("foreign", &path, &["-o", form]).done();
    let tabs = "offset\ttype\n624\t200\n640\t9\n680\t9\n";
    assert_eq!(listed("tsv"), tabs);
    assert_eq!(listed("csv"), tabs.replace('\t', ","));
    let objects = [(624, 200), (640, 9), (680, 9)]
        .map(|(offset, kind)| format!("{{\"offset\":\"{offset}\",\"type\":\"{kind}\"}}\n"));
    assert_eq!(listed("json"), objects.concat());
    let cells = typed("foreign", &path, &["-otsv", "--no-header"]).done();
    assert_eq!(cells, &tabs[12..]);

    // The lines that `check` has of every file stay, and one comes after them.
    let expected = format!(
        "opens, 2 entries\n\
         takes appends with --machine {MACHINE}\n\
         room: 3240 of 3840 bytes left, for about 13 entries of 244 bytes, the present mean\n\
         header: 256 bytes; its boot id need not be that of the last entry\n\
         foreign objects: 3 (2 of type 9, 1 of type 200)\n"
    );
    assert_eq!(asked("check", &path).done(), expected);
    // A list of none is an answer too, and `check` has nothing to say of it.
    let none = file(&folder("foreign-none"), "two.journal", &two_appends(1));
    assert_eq!(asked("foreign", &none).done(), heading);
    assert_eq!(typed("foreign", &none, &["-o", "json"]).done(), "");
    assert_eq!(checked(&none), "");
}

/// `check` counts a hundred, and says where there are more.
#[test]
fn many() {
    let folder = folder("foreign-many");
    let mut image = two_appends(1);
    for n in 0..120 {
        let kind = if n % 4 == 0 { 255 } else { 8 };
        put(&mut image, kind, 16).expect("room");
        let path = file(&folder, "many.journal", &image);
        let expected = match n {
            0 => "foreign objects: 1 (1 of type 255)\n",
            1 => "foreign objects: 2 (1 of type 8, 1 of type 255)\n",
            98 => "foreign objects: 99 (74 of type 8, 25 of type 255)\n",
            99 => "foreign objects: 100 (75 of type 8, 25 of type 255)\n",
            100 | 119 => {
                "foreign objects: more than 100 (of the first 100: 75 of type 8, 25 of type 255)\n"
            }
            _ => continue,
        };
        assert_eq!(checked(&path), expected);
        let listed = typed("foreign", &path, &["--no-header"]).done();
        assert_eq!(listed.lines().count(), n + 1);
    }
}

/// What other commands print is what they print of the file without them.
#[test]
fn nothing_else_shows_them() {
    let path = with_three("foreign-others");
    let plain = made(&folder("foreign-plain"), "one.journal", "4096");
    append(&plain, 1, &["LOT=7"]).done();
    append(&plain, 2, &["LOT=8"]).done();
    for (name, words) in [
        ("list", &[][..]),
        ("list", &["-o", "json"]),
        ("show", &["2"]),
        ("show", &["last"]),
        ("find", &["--seqnum", "2"]),
        ("find", &["--time", "1700000000000002"]),
        ("find", &["--field", "LOT=8"]),
        ("newest", &["LOT"]),
        ("values", &["LOT"]),
    ] {
        let [one, other] = [&path, &plain].map(|it| typed(name, it, words).done());
        assert_eq!(one, other, "{name} {words:?}");
    }
}

/// Against the independent reading.
fn as_the_reading_has_it(path: &Path) -> usize {
    let image = bytes(path);
    let objects = open(&image).expect("it opens").foreign_objects();
    let mut types = BTreeMap::new();
    let mut rows = String::new();
    for object in &objects {
        rows += &format!("{}\t{}\n", object.offset, object.kind);
        *types.entry(object.kind).or_insert(0) += 1;
    }
    let words = ["-o", "tsv", "--no-header"];
    assert_eq!(typed("foreign", path, &words).done(), rows);
    let each = types.iter().map(|(kind, n)| format!("{n} of type {kind}"));
    let each = Vec::from_iter(each).join(", ");
    let line = match objects.len() {
        0 => String::new(),
        count => format!("foreign objects: {count} ({each})\n"),
    };
    assert_eq!(checked(path), line);
    objects.len()
}

#[test]
fn good_files() {
    let folder = folder("foreign-good");
    let mut count = 0;
    for seed in 0..60 {
        let image = good(&mut Random::new(seed + 700)).image;
        count += as_the_reading_has_it(&file(&folder, "good.journal", &image));
    }
    assert!(count > 30, "{count}");
    for (name, _) in FILES.iter().filter(|(_, number)| *number == 0) {
        assert_eq!(as_the_reading_has_it(&corpus::path(name)), 0, "{name}");
    }
}
