//! `append`, against the independent reading byte for byte.
use crate::expected::expected;
use crate::person::{
    append, asked, bytes, checked, file, folder, made, options, program, said, typed, BOOT, MACHINE,
};
use std::collections::BTreeSet;
use std::ffi::OsStr;
use std::fs::{metadata, File};
use std::os::unix::ffi::OsStrExt;
use std::os::unix::fs::MetadataExt;
use std::time::{SystemTime, UNIX_EPOCH};

/// Entries with old and new values, repeats, and a number of stores beyond the first list that the
/// program lends.
#[test]
fn as_the_reading_has_it() {
    let path = made(&folder("append"), "one.journal", "1048576");
    let long: Vec<String> = (0..64)
        .map(|n| format!("L{n}={}", "x".repeat(4_000 + n)))
        .collect();
    let entries: [&[&str]; 6] = [
        &["MESSAGE=lot 12 due", "PRIORITY=2"],
        &["PRIORITY=2"],
        &["PRIORITY=2", "MESSAGE=", "PRIORITY=2"],
        &["MESSAGE=a=b", "LOT=7"],
        &["LOT=7"],
        &long.iter().map(String::as_str).collect::<Vec<_>>(),
    ];
    for (fields, seqnum) in entries.into_iter().zip(1..) {
        let payloads: Vec<&[u8]> = fields.iter().map(|field| field.as_bytes()).collect();
        let (image, stores) = expected(&bytes(&path), seqnum, &payloads);
        let text = append(&path, seqnum, fields).done();
        assert!(bytes(&path) == image, "{fields:?}");
        let start = format!(
            "appended entry {seqnum}, 2023-11-14 22:13:20.{seqnum:06} +0000 \
             (170000000000000{seqnum}), "
        );
        assert!(text.starts_with(&start), "{text}");
        let fields = payloads.iter().collect::<BTreeSet<_>>().len();
        let fields = if fields == 1 {
            "1 field".to_string()
        } else {
            format!("{fields} fields")
        };
        let middle = format!("), {fields}, {stores} stores, ");
        assert!(text.contains(&middle), "{text}");
    }
    assert_eq!(checked(&path), "opens, 6 entries\n");
    assert_eq!(
        typed("values", &path, &["MESSAGE"]).done(),
        "a=b\n\nlot 12 due\n"
    );
}

/// Sequence numbers from 1 on, the present time, this machine and its boot.
#[test]
fn as_chosen_here() {
    let path = folder("append-chosen").join("one.journal");
    typed("new", &path, &["--size=65536"]).done();
    let now = || {
        let now = SystemTime::now()
            .duration_since(UNIX_EPOCH)
            .expect("after 1970");
        now.as_micros() as u64
    };
    let mut last = 0;
    for seqnum in 1..4 {
        let before = now();
        typed("append", &path, &["A=1"]).done();
        let shown = typed("show", &path, &[seqnum.to_string()]).done();
        let fact = |name: &str| {
            let line = shown.lines().find(|line| line.starts_with(name));
            line.expect("a line")
                .split_whitespace()
                .last()
                .expect("a fact")
                .to_string()
        };
        let times = ["realtime", "monotonic"].map(|name| fact(name).parse().expect("a number"));
        let [realtime, monotonic] = times;
        assert!(before <= realtime && realtime <= now(), "{shown}");
        assert!(last < monotonic, "{shown}");
        last = monotonic;
        let boot = std::fs::read_to_string("/proc/sys/kernel/random/boot_id");
        assert_eq!(
            fact("boot id") + "\n",
            boot.expect("it is there").replace('-', "")
        );
    }
    // The greatest sequence number is the last.
    let words = ["--seqnum", "18446744073709551615", "A=1"];
    typed("append", &path, &words).done();
    assert_eq!(typed("append", &path, &["A=1"]).refused(&path), 17);
}

/// Values that are no text: they come back to the byte, and are shown so that a line stays a line.
#[test]
fn bytes_that_do_not_print() {
    let path = made(&folder("append-bytes"), "one.journal", "65536");
    let all: Vec<u8> = b"A=".iter().copied().chain(1..=255).collect();
    let field = OsStr::from_bytes(&all);
    let (image, _) = expected(&bytes(&path), 1, &[&all]);
    said(
        program()
            .arg("append")
            .arg(&path)
            .args(options(1))
            .arg(field),
    )
    .done();
    assert!(bytes(&path) == image);
    let controls: String = (1..32).map(|byte| format!("\\x{byte:02x}")).collect();
    let ascii: String = (' '..='~').collect::<String>().replace('\\', "\\\\");
    let rest: String = (127..=255).map(|byte| format!("\\x{byte:02x}")).collect();
    let shown = typed("values", &path, &["A"]).done();
    assert_eq!(shown, format!("{controls}{ascii}{rest}\n"));
    let printed = format!("A={}", shown.trim_end());
    let found = typed("find", &path, &["--field", &printed]).done();
    assert_eq!(found.lines().count(), 2);

    append(
        &path,
        2,
        &["MESSAGE=Grüße\tan e\u{301} \u{202e}x\u{200b}\u{feff}"],
    )
    .done();
    let shown = "Grüße\\x09an e\u{301} \\xe2\\x80\\xaex\\xe2\\x80\\x8b\\xef\\xbb\\xbf";
    assert_eq!(
        typed("values", &path, &["MESSAGE"]).done(),
        format!("{shown}\n")
    );
    let listed = asked("list", &path).done();
    assert!(
        listed.ends_with(&format!("       1  {shown}\n")),
        "{listed}"
    );
}

/// Until the file is full: then nothing changes any more.
#[test]
fn until_it_is_full() {
    let path = made(&folder("append-full"), "one.journal", "4096");
    let mut taken = 0;
    let refused = loop {
        let before = bytes(&path);
        let answer = append(&path, taken + 1, &["A=1", "MESSAGE=wet"]);
        if answer.status != Some(0) {
            assert!(bytes(&path) == before);
            break answer.refused(&path);
        }
        answer.done();
        taken += 1;
    };
    assert_eq!(refused, 18);
    assert!(taken > 10, "{taken}");
    assert_eq!(checked(&path), format!("opens, {taken} entries\n"));
}

/// A file with holes has its blocks before the first store.
#[test]
fn a_file_with_holes() {
    let folder = folder("append-holes");
    let whole = bytes(&made(&folder, "whole.journal", "1048576"));
    let used = 32_768;
    let path = file(&folder, "holes.journal", &whole[..used]);
    let open = File::options()
        .write(true)
        .open(&path)
        .expect("it is there");
    open.set_len(whole.len() as u64).expect("a length");
    let blocks = || metadata(&path).expect("it is there").blocks() * 512;
    assert!(
        blocks() < whole.len() as u64,
        "this file system has no holes"
    );
    assert!(bytes(&path) == whole);
    append(&path, 1, &["A=1"]).done();
    assert!(blocks() >= whole.len() as u64);
    assert!(bytes(&path) == expected(&whole, 1, &[b"A=1"]).0);
    // And ids may be written in either way.
    let dashed = MACHINE.to_string() + "-";
    let words = [
        "--machine",
        &dashed,
        "--boot",
        &BOOT.replace('-', ""),
        "A=2",
    ];
    typed("append", &path, &words).done();
}
