//! Local times, in zones that are given by their rules.
use crate::person::{append, asked, folder, made, options, program, said, typed, Said};
use std::path::Path;

/// Central Europe: one hour ahead of UTC, two from the last Sunday of March to that of October.
const BERLIN: &str = "CET-1CEST,M3.5.0,M10.5.0/3";
/// Five and a half hours ahead.
const KOLKATA: &str = "IST-5:30";
/// Five hours behind, in summer four.
const NEW_YORK: &str = "EST5EDT,M3.2.0,M11.1.0";

fn find(path: &Path, zone: &str, time: &str) -> Said {
    let mut command = program();
    said(
        command
            .env("TZ", zone)
            .arg("find")
            .arg(path)
            .args(["--time", time]),
    )
}

/// The sequence number that is found.
fn found(path: &Path, zone: &str, time: &str) -> u64 {
    let text = find(path, zone, time).done();
    let line = text.lines().nth(1).expect("an entry");
    let seqnum = line.split_whitespace().next().expect("a number");
    seqnum.parse().expect("a number")
}

/// Local times of a list, in a zone.
fn listed(path: &Path, zone: &str) -> Vec<String> {
    let text = said(program().env("TZ", zone).arg("list").arg(path)).done();
    let words = |line: &str| {
        line.split_whitespace()
            .skip(1)
            .take(3)
            .collect::<Vec<_>>()
            .join(" ")
    };
    text.lines().skip(1).map(words).collect()
}

#[test]
fn zones() {
    let path = made(&folder("zones"), "one.journal", "65536");
    // Two instants an hour apart that Berlin's clock shows alike, on the morning of 2023-10-29.
    let times = [
        1_698_539_400_000_000u64,
        1_698_543_000_000_000,
        1_700_000_000_000_001,
    ];
    for (time, seqnum) in times.into_iter().zip(1..) {
        let mut words = options(seqnum);
        words[3] = time.to_string();
        typed("append", &path, &[words, vec!["A=1".to_string()]].concat()).done();
    }
    let rows = |zone: &str| listed(&path, zone);
    assert_eq!(
        rows("UTC0"),
        [
            "2023-10-29 00:30:00.000000 +0000",
            "2023-10-29 01:30:00.000000 +0000",
            "2023-11-14 22:13:20.000001 +0000"
        ]
    );
    assert_eq!(
        rows(BERLIN),
        [
            "2023-10-29 02:30:00.000000 +0200",
            "2023-10-29 02:30:00.000000 +0100",
            "2023-11-14 23:13:20.000001 +0100"
        ]
    );
    assert_eq!(rows(KOLKATA)[0], "2023-10-29 06:00:00.000000 +0530");
    assert_eq!(rows(NEW_YORK)[2], "2023-11-14 17:13:20.000001 -0500");

    // What is listed finds the entry, in any zone.
    for zone in ["UTC0", BERLIN, KOLKATA, NEW_YORK] {
        for (time, seqnum) in rows(zone).iter().zip(1..) {
            assert_eq!(found(&path, zone, time), seqnum, "{zone} {time}");
            assert_eq!(found(&path, "UTC0", time), seqnum, "{zone} {time}");
        }
    }
    assert_eq!(found(&path, BERLIN, "2023-11-14 23:13:20.000001"), 3);
    assert_eq!(found(&path, BERLIN, "2023-10-29 01:59:59"), 1);
    assert_eq!(found(&path, BERLIN, "2023-10-29 03:00:00"), 3);
    assert_eq!(found(&path, NEW_YORK, "2023-10-28 20:30:00.5"), 2);
    let none = find(&path, BERLIN, "2023-11-14 23:13:20.000002").failed_with(&path);
    let shown = "2023-11-14 23:13:20.000002 +0100 (1700000000000002)";
    assert_eq!(none, format!("no entry at {shown} or later"));
}

#[test]
fn times_that_are_none() {
    let path = made(&folder("times"), "one.journal", "4096");
    append(&path, 1, &["A=1"]).done();
    let wrong = |zone: &str, time: &str| {
        let line = find(&path, zone, time).failed(2);
        let start = format!("--time {time}: ");
        let words = line.strip_prefix(&start).expect("what was typed");
        words.trim_end_matches(" (--help tells more)").to_string()
    };
    let twice = "the clock showed this local time twice: add the zone, as list prints it";
    assert_eq!(wrong(BERLIN, "2023-10-29 02:30:00"), twice);
    let never = "the clock was put forward over this local time";
    assert_eq!(wrong(BERLIN, "2023-03-26 02:30:00"), never);
    let form = "no time: it is like 'YYYY-MM-DD HH:MM:SS', with a zone or none, a date, a time of \
                day, now, or microseconds";
    for time in [
        "",
        "yesterday",
        "2023-11",
        "2023-11-14T",
        "2023-11-14 22",
        "2023-11-14 22:13.5",
        "2023-11-14t22:13:20",
        "2023-11-14 22:1",
        "24:00",
        "2023-11-14 24:00:00",
        "2023-11-14 22:60:00",
        "2023-11-14 22:13:60",
        "2023-13-14 22:13:20",
        "2023-00-14 22:13:20",
        "2023-11-31 22:13:20",
        "2023-11-00 22:13:20",
        "2023-02-29 22:13:20",
        "1900-02-29 22:13:20",
        "2023-11-14 22:13:20.",
        "2023-11-14 22:13:20.1234567",
        "2023-11-14 22:13:+0",
        "-1",
    ] {
        assert_eq!(wrong("UTC0", time), form);
    }
    for zone in [
        " CET", "+1", "+01:0", "+010", "+01:60", "+24:00", "ZZ", "Z+01", "  Z",
    ] {
        let time = format!("2023-11-14 22:13:20{zone}");
        assert_eq!(wrong("UTC0", &time), "no zone: it is like +0100", "{time}");
    }
    assert_eq!(wrong("UTC0", "1969-12-31 23:59:59"), "before 1970");
    assert_eq!(wrong("UTC0", "999999-01-01 00:00:00"), "too late");
    assert_eq!(
        wrong("UTC0", "18446744073709551616"),
        "a number above 2^64 - 1"
    );
}

/// The first and the last microsecond, and leap days.
#[test]
fn edges() {
    let path = made(&folder("time-edges"), "one.journal", "4096");
    let times = [
        ("0", "1970-01-01 00:00:00.000000 +0000"),
        ("951782400000000", "2000-02-29 00:00:00.000000 +0000"),
        ("1709251199999999", "2024-02-29 23:59:59.999999 +0000"),
        ("4107542399000000", "2100-02-28 23:59:59.000000 +0000"),
        ("4107542400000000", "2100-03-01 00:00:00.000000 +0000"),
        ("18446744073709551615", "586524-01-19 08:01:49.551615 +0000"),
    ];
    for ((time, text), seqnum) in times.into_iter().zip(1..) {
        // By the number, and by the text.
        let mut words = options(seqnum);
        words[3] = if seqnum % 2 == 0 { time } else { text }.to_string();
        words.extend(["--anyway", "A=1"].map(str::to_string));
        typed("append", &path, &words).done();
    }
    let listed = asked("list", &path).done();
    for ((time, text), line) in times.into_iter().zip(listed.lines().skip(1)) {
        let words: Vec<&str> = line.split_whitespace().collect();
        assert_eq!((words[1..4].join(" "), words[4]), (text.to_string(), time));
    }
}
