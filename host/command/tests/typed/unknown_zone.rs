//! A `TZ` that names no zone: the system takes UTC then, and the program says so.
use crate::person::{append, file, folder, made, program, said, Said};
use std::path::{Path, PathBuf};

fn one(name: &str) -> PathBuf {
    let path = made(&folder(name), "one.journal", "4096");
    append(&path, 1, &["A=1"]).done();
    path
}

fn of_zone(path: &Path, zone: &str, command: &[&str]) -> Said {
    let (name, words) = command.split_first().expect("a name");
    said(program().env("TZ", zone).arg(name).arg(path).args(words))
}

/// What is said of it where local times are shown.
#[test]
fn shown() {
    let path = one("zone-shown");
    let utc = of_zone(&path, "UTC0", &["list"]).done();
    for zone in [
        "Nowhere/Land",
        ":Nowhere/Land",
        "Nowhere",
        "CET-",
        "CE1",
        "<CET>",
        "/",
        "\u{1b}",
    ] {
        let said = of_zone(&path, zone, &["list"]);
        let zone = zone.replace('\u{1b}', "\\x1b");
        let words = format!("journal: TZ is {zone}, which is no zone here: times are in UTC\n");
        let expected = Said {
            out: utc.clone(),
            err: words,
            status: Some(0),
        };
        assert_eq!(said, expected);
    }
    // Once, and not where no local time is shown.
    let said = of_zone(&path, "Nowhere", &["show", "last"]);
    assert_eq!(said.err.lines().count(), 1);
    for command in [&["values", "A"][..], &["check"], &["list", "-o", "json"]] {
        of_zone(&path, "Nowhere", command).done();
    }
}

/// A local time that is typed would be misread.
#[test]
fn typed() {
    let path = one("zone-typed");
    let time = "2023-11-14 22:13:20";
    let line = of_zone(&path, "Nowhere/Land", &["find", "--time", time]).failed(2);
    let why = "TZ is Nowhere/Land, which is no zone here: add one, like +0100";
    assert_eq!(line, format!("--time {time}: {why} (--help tells more)"));
    for time in ["2023-11-14", "00:00"] {
        let line = of_zone(&path, "Nowhere/Land", &["list", "--since", time]).failed(2);
        assert!(line.contains(why), "{line}");
    }
    for time in ["2023-11-14T22:13:20Z", "1700000000000000"] {
        let said = of_zone(&path, "Nowhere/Land", &["find", "--time", time]);
        assert_eq!((said.status, said.out.lines().count()), (Some(0), 2));
    }
}

/// The bytes of a zone file: one hour ahead of UTC, all year.
fn zone_file() -> Vec<u8> {
    let counts = [0u32, 0, 0, 0, 1, 4].map(u32::to_be_bytes).concat();
    [
        b"TZif",
        &[0; 16][..],
        &counts,
        &3600u32.to_be_bytes(),
        &[0, 0],
        b"CET\0",
    ]
    .concat()
}

/// Zones by a rule, by a file, and by its name in the folder of zones.
#[test]
fn known() {
    let path = one("zone-known");
    let zones = folder("zone-files");
    let file = file(&zones, "Here", &zone_file());
    let time = |zone: &str| {
        let mut command = program();
        command.env("TZ", zone).env("TZDIR", &zones);
        let text = said(command.arg("list").arg(&path)).done();
        let line = text.lines().nth(1).expect("an entry").to_string();
        line.split_whitespace().nth(3).expect("a zone").to_string()
    };
    for (zone, east) in [
        ("", "+0000"),
        ("UTC", "+0000"),
        ("GMT", "+0000"),
        ("Etc/UTC", "+0000"),
        ("CET-1", "+0100"),
        (":CET-1", "+0100"),
        ("CET-1CEST,M3.5.0,M10.5.0/3", "+0100"),
        ("EST5EDT,M3.2.0,M11.1.0", "-0500"),
        ("<+0330>-3:30", "+0330"),
        ("Here", "+0100"),
        (file.to_str().expect("a name of text"), "+0100"),
    ] {
        assert_eq!(time(zone), east, "{zone}");
    }
}
