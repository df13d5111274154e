//! A clock that ran fast and was set right: entries whose wall times fall and rise again, as a person
//! meets them.
use crate::person::{asked, bytes, checked, folder, made, options, program, said, typed, MACHINE};
use crate::two::of_two;
use reading::layout::header;
use std::path::Path;
use std::time::{SystemTime, UNIX_EPOCH};

const HOUR: u64 = 3_600_000_000;
/// 2023-11-14 22:13:20.
const RIGHT: u64 = 1_700_000_000_000_000;
/// An hour fast, set right after the second entry, and past the old times at last.
const TIMES: [u64; 6] = [
    RIGHT + HOUR + 1,
    RIGHT + HOUR + 2,
    RIGHT + 3,
    RIGHT + 4,
    RIGHT + HOUR + 2,
    RIGHT + HOUR + 5,
];

/// Appends an entry with a number at a wall time.
fn append_at(path: &Path, seqnum: u64, time: u64) {
    let mut words = options(seqnum);
    words[3] = time.to_string();
    words.push("A=1".to_string());
    typed("append", path, &words).done();
}

/// The sequence numbers of the lines that are printed, from a column on.
fn numbers(printed: &str, column: usize) -> Vec<u64> {
    let number = |line: &str| {
        line.split_whitespace()
            .nth(column)
            .expect("a column")
            .parse()
    };
    let lines = printed.lines().skip(1);
    lines.map(|line| number(line).expect("a number")).collect()
}

/// The wall time of an entry, as `show` prints it.
fn time_of(path: &Path, seqnum: u64) -> u64 {
    let shown = typed("show", path, &[seqnum.to_string()]).done();
    let line = shown.lines().find(|line| line.starts_with("realtime"));
    let time = line.expect("a line").split_whitespace().nth(1);
    time.expect("a time").parse().expect("a number")
}

fn now() -> u64 {
    let now = SystemTime::now().duration_since(UNIX_EPOCH);
    now.expect("after 1970").as_micros() as u64
}

/// Listed by number and not by time; found is the first in order, which need not be the nearest.
#[test]
fn listed_and_found_in_order() {
    let path = made(&folder("set-clock"), "one.journal", "65536");
    for (time, seqnum) in TIMES.into_iter().zip(1..) {
        append_at(&path, seqnum, time);
    }
    assert_eq!(checked(&path), "opens, 6 entries\n");
    let listed = asked("list", &path).done();
    assert_eq!(numbers(&listed, 0), [1, 2, 3, 4, 5, 6]);
    assert_eq!(numbers(&listed, 4), TIMES);

    let found = |time: u64| {
        numbers(
            &typed("find", &path, &["--time", &time.to_string()]).done(),
            0,
        )
    };
    for (time, seqnum) in [
        // Entries 3 and 4 are nearer, and later in order.
        (0, 1),
        (RIGHT + 3, 1),
        (RIGHT + 4, 1),
        (RIGHT + 5, 1),
        (RIGHT + HOUR + 1, 1),
        (RIGHT + HOUR + 2, 2),
        (RIGHT + HOUR + 3, 6),
        (RIGHT + HOUR + 5, 6),
    ] {
        assert_eq!(found(time), [seqnum], "{time}");
    }
    // As a local time too; and past the last there is none.
    let words = ["--time", "2023-11-14 23:13:20.000002"];
    assert_eq!(numbers(&typed("find", &path, &words).done(), 0), [2]);
    let past = (RIGHT + HOUR + 6).to_string();
    let none = typed("find", &path, &["--time", &past]).failed_with(&path);
    let shown = "2023-11-14 23:13:20.000006 +0000 (1700003600000006)";
    assert_eq!(none, format!("no entry at {shown} or later"));
}

/// Without `--time` it is the present, also where the last entry lies in the future.
#[test]
fn the_present_after_the_future() {
    let path = made(&folder("set-clock-now"), "one.journal", "65536");
    let future = now() + 24 * HOUR;
    append_at(&path, 1, future);
    let before = now();
    let answer = typed("append", &path, &["--machine", MACHINE, "A=1"]).done();
    let (time, after) = (time_of(&path, 2), now());
    assert!((before..=after).contains(&time), "{before} {time} {after}");
    assert!(answer.contains(&format!(" ({time}), ")), "{answer}");
    assert_eq!(time_of(&path, 1), future);
    let words = ["--machine", MACHINE, "--time", "1", "A=1"];
    typed("append", &path, &words).done();
    assert_eq!(time_of(&path, 3), 1);
    // The first in order is the one of the future, at the present and right up to its own time.
    for time in [1, time, time + 1, future] {
        let found = typed("find", &path, &["--time", &time.to_string()]).done();
        assert_eq!(numbers(&found, 0), [1], "{time}");
    }
    let none = typed("find", &path, &["--time", &(future + 1).to_string()]);
    none.failed_with(&path);
}

/// Two controllers, one of them set right: by number under one seqnum id, whatever the clocks say.
#[test]
fn in_a_stream_of_two() {
    let folder = folder("set-clock-two");
    let files = ["one.journal", "two.journal"].map(|name| made(&folder, name, "65536"));
    let mut second = bytes(&files[1]);
    for (place, path) in files.iter().enumerate() {
        let mut image = bytes(path);
        image[header::SEQNUM_ID as usize..][..16].fill(4);
        std::fs::write(path, image).expect("a file");
        for (time, n) in TIMES.into_iter().zip(0..) {
            append_at(path, 2 * n + 1 + place as u64, time + 10 * place as u64);
        }
    }
    let listed = of_two("list", &files, &[]).done();
    assert_eq!(numbers(&listed, 1), Vec::from_iter(1..=12));
    let found = |time: u64| {
        let time = time.to_string();
        numbers(&of_two("find", &files, &["--time", &time]).done(), 1)
    };
    assert_eq!(found(RIGHT), [1]);
    assert_eq!(found(RIGHT + HOUR + 2), [2]);
    assert_eq!(found(RIGHT + HOUR + 12), [4]);
    assert_eq!(found(RIGHT + HOUR + 13), [12]);

    // Another seqnum id and another boot: by wall time, and yet each file in its own order.
    second[header::SEQNUM_ID as usize..][..16].fill(6);
    std::fs::write(&files[1], second).expect("a file");
    for (time, n) in [RIGHT, RIGHT + 2 * HOUR, RIGHT + 1].into_iter().zip(1..) {
        let words = ["--machine", MACHINE, "--boot", &"6".repeat(32), "--seqnum"];
        let own = [n.to_string(), "--time".to_string(), time.to_string()];
        let mut command = program();
        command.arg("append").arg(&files[1]).args(words).args(own);
        said(command.arg("A=2")).done();
    }
    let listed = of_two("list", &files, &[]).done();
    let rows: Vec<(u64, u64)> = numbers(&listed, 0)
        .into_iter()
        .zip(numbers(&listed, 1))
        .collect();
    let first = [1, 3, 5, 7, 9, 11].map(|n| (1, n));
    assert_eq!(rows, [&[(2, 1)], &first[..], &[(2, 2), (2, 3)]].concat());
}
