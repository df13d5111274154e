//! Times as people type them: dates, times of day, ISO 8601, and `now`.
use crate::person::{append, folder, made, options, program, said, typed};
use std::path::{Path, PathBuf};
use std::time::{SystemTime, UNIX_EPOCH};

const BERLIN: &str = "CET-1CEST,M3.5.0,M10.5.0/3";
const KOLKATA: &str = "IST-5:30";
const SECOND: u64 = 1_000_000;
const DAY: u64 = 86_400;

fn empty(name: &str) -> PathBuf {
    made(&folder(name), "one.journal", "4096")
}

/// The microseconds that a text stands for: a file without entries has none then or later.
fn instant(path: &Path, zone: &str, time: &str) -> u64 {
    let mut command = program();
    command.env("TZ", zone).arg("find").arg(path);
    let line = said(command.args(["--time", time])).failed_with(path);
    let number = line
        .strip_suffix(") or later")
        .and_then(|it| it.rsplit('(').next());
    let number = number.unwrap_or_else(|| panic!("{line}"));
    number.parse().expect("a number")
}

fn now() -> u64 {
    let now = SystemTime::now().duration_since(UNIX_EPOCH);
    now.expect("after 1970").as_micros() as u64
}

/// One instant in many ways, in two zones.
#[test]
fn of_one_instant() {
    let path = empty("time-forms");
    let expected = 1_700_000_000 * SECOND;
    for time in [
        "1700000000000000",
        "2023-11-14T22:13:20Z",
        "2023-11-14T22:13:20.000000Z",
        "2023-11-14 22:13:20Z",
        "2023-11-14 22:13:20 Z",
        "2023-11-14T23:13:20+01:00",
        "2023-11-14T23:13:20+0100",
        "2023-11-14T23:13:20+01",
        "2023-11-14 23:13:20 +01:00",
        "2023-11-15T03:43:20+05:30",
        "2023-11-14T17:13:20-05:00",
    ] {
        assert_eq!(instant(&path, "UTC0", time), expected, "{time}");
        assert_eq!(instant(&path, BERLIN, time), expected, "{time}");
    }
    for time in ["2023-11-14 23:13:20", "2023-11-14T23:13:20"] {
        assert_eq!(instant(&path, BERLIN, time), expected, "{time}");
    }
    let half = instant(&path, "UTC0", "2023-11-14T22:13:20.5Z");
    assert_eq!(half, expected + SECOND / 2);
}

/// A date is its midnight, and a time without seconds is at their start.
#[test]
fn shorter_ones() {
    let path = empty("time-short");
    let midnight = 1_699_920_000 * SECOND;
    assert_eq!(instant(&path, "UTC0", "2023-11-14"), midnight);
    assert_eq!(
        instant(&path, BERLIN, "2023-11-14"),
        midnight - 3600 * SECOND
    );
    assert_eq!(instant(&path, BERLIN, "2023-07-01"), 1_688_162_400 * SECOND);
    let minutes = instant(&path, "UTC0", "2023-11-14 22:13");
    assert_eq!(minutes, 1_699_999_980 * SECOND);
    assert_eq!(instant(&path, "UTC0", "2023-11-14T23:13+01:00"), minutes);
}

/// A time of day is of the present date, in the zone that is typed or in local time.
#[test]
fn of_today() {
    let path = empty("time-today");
    let ten = 10 * 3600;
    for (zone, time, ahead) in [
        ("UTC0", "10:00", 0),
        ("UTC0", "10:00:00", 0),
        (KOLKATA, "10:00", 19_800),
        (KOLKATA, "10:00Z", 0),
        ("UTC0", "10:00 +05:30", 19_800),
        ("UTC0", "10:00:00.0-0500", -18_000i64),
    ] {
        // The day may change while the program runs.
        let day = || (now() / SECOND).wrapping_add_signed(ahead) / DAY;
        let before = day();
        let found = instant(&path, zone, time);
        let of = |day: u64| (day * DAY + ten).wrapping_add_signed(-ahead) * SECOND;
        assert!(
            (before..=day()).any(|day| of(day) == found),
            "{zone} {time}: {found}"
        );
    }
}

#[test]
fn at_present() {
    let path = empty("time-now");
    let before = now();
    let found = instant(&path, BERLIN, "now");
    assert!(before <= found && found <= now(), "{found}");
}

/// `append` takes them too.
#[test]
fn appended() {
    let path = empty("time-append");
    let mut words = options(1);
    words[3] = "2023-11-14T23:13:20+01:00".to_string();
    words.push("A=1".to_string());
    typed("append", &path, &words).done();
    let shown = typed("show", &path, &["last"]).done();
    assert!(shown.contains("\nrealtime   1700000000000000\n"), "{shown}");
    append(&path, 2, &["A=1"]).done();
    let words = [
        "--since",
        "2023-11-14",
        "--until",
        "2023-11-14T22:13:20Z",
        "--no-header",
    ];
    assert_eq!(typed("list", &path, &words).done().lines().count(), 1);
}
