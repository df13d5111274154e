//! Stamps that the rules take and that are hardly meant.
use crate::person::{bytes, folder, made, options, typed, Said, MACHINE};
use std::path::Path;
use std::time::{SystemTime, UNIX_EPOCH};

const LATEST: u64 = 1 << 55;
const HOUR: u64 = 3_600_000_000;

/// An append with another value of one option.
fn with(path: &Path, option: &str, value: &str, others: &[&str]) -> Said {
    let mut words = options(1);
    let place = words.iter().position(|word| word == option);
    words[place.expect("an option") + 1] = value.to_string();
    words.extend(others.iter().map(|word| word.to_string()));
    typed("append", path, &words)
}

fn now() -> u64 {
    let now = SystemTime::now().duration_since(UNIX_EPOCH);
    now.expect("after 1970").as_micros() as u64
}

/// Refused with a reason, and the file stays; with `--anyway` it is taken.
fn doubted(path: &Path, option: &str, value: &str) -> String {
    let before = bytes(path);
    let words = with(path, option, value, &["A=1"]).failed_with(path);
    assert_eq!(bytes(path), before);
    with(path, option, value, &["--anyway", "A=1"]).done();
    std::fs::write(path, before).expect("it is ours");
    words
}

#[test]
fn what_journalctl_does_not_show() {
    let path = made(&folder("doubt-hidden"), "one.journal", "4096");
    for time in [0, LATEST, now() * 1_000] {
        let expected = format!(
            "--time {time}: journalctl shows no entry of it, only of 1 to 2^55 - 1 microseconds \
             since 1970 (--anyway appends it)"
        );
        assert_eq!(doubted(&path, "--time", &time.to_string()), expected);
    }
    for time in [LATEST, u64::MAX] {
        let expected = format!(
            "--monotonic {time}: journalctl shows no entry of it, only of 0 to 2^55 - 1 \
             microseconds (--anyway appends it)"
        );
        assert_eq!(doubted(&path, "--monotonic", &time.to_string()), expected);
    }
    let expected =
        "--boot 0: journalctl may not show an entry without a boot (--anyway appends it)";
    assert_eq!(doubted(&path, "--boot", &"0".repeat(32)), expected);

    let before = bytes(&path);
    for (option, value) in [
        ("--time", 1),
        ("--monotonic", 0),
        ("--monotonic", LATEST - 1),
    ] {
        with(&path, option, &value.to_string(), &["A=1"]).done();
        std::fs::write(&path, &before).expect("it is ours");
    }
}

/// A day is let pass: clocks and zones differ. More than that is a year typed wrongly.
#[test]
fn past_the_clock() {
    let path = made(&folder("doubt-future"), "one.journal", "4096");
    let words = doubted(&path, "--time", "2923-11-14 22:13:20");
    let start = "--time 2923-11-14 22:13:20.000000 +0000 (30101235200000000): this is more than a \
                 day past this machine's clock, 20";
    assert!(words.starts_with(start), "{words}");
    doubted(&path, "--time", &(now() + 25 * HOUR).to_string());
    let tomorrow = (now() + 23 * HOUR).to_string();
    with(&path, "--time", &tomorrow, &["A=1"]).done();
}

/// Of this boot, which is taken where none is given; the clock of another is not known here.
#[test]
fn past_the_monotonic_clock() {
    let path = made(&folder("doubt-monotonic"), "one.journal", "4096");
    let far = (LATEST - 1).to_string();
    let words = ["--machine", MACHINE, "--monotonic", &far, "A=1"];
    let said = typed("append", &path, &words).failed_with(&path);
    let start = format!("--monotonic {far}: this is more than a day past this machine's clock, ");
    assert!(said.starts_with(&start), "{said}");
    with(&path, "--monotonic", &far, &["A=1"]).done();
}
