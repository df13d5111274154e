//! Texts with an entry that is not taken, for each reason: it is named by its number and its line, all before it are
//! appended, also those of its batch, and nothing after it.
use crate::banks::{imported, other, tray, with_length};
use crate::person::{bytes, folder, made};
use crate::tray::{beside, planned, results};
use std::path::Path;

/// The entry at a place from 0 is bad, with a number and words that start so, and those before it are in a new file.
/// Each before it has seven lines.
fn stops(folder: &Path, text: &[u8], place: usize, number: u64, why: &str) {
    let path = made(folder, "one.journal", "65536");
    let (expected, done) = match place {
        0 => (bytes(&path), "nothing is appended".to_string()),
        _ => (
            planned(&bytes(&path), 1, &results(0, place)).after,
            format!("the {place} entries before it are appended, and nothing from there on"),
        ),
    };
    let said = imported(&path, text, &[]);
    let start = format!(
        "journal: {}: entry {} of the text, line {}: {why}",
        path.display(),
        place + 1,
        7 * place + 1
    );
    assert!(said.err.starts_with(&start), "{}\n{start}", said.err);
    let end = format!("; {done} (refusal {number}: ");
    assert!(said.err.contains(&end), "{}\n{end}", said.err);
    assert_eq!((said.status, said.err.lines().count()), (Some(4), 1));
    assert!(bytes(&path) == expected, "{why}");
    let lines = said.out.lines().count();
    assert_eq!(lines, usize::from(place > 0), "{}", said.out);
    assert!(!beside(&path).exists());
    std::fs::remove_file(path).expect("it was made");
}

/// Each is tried at the start, in the first batch and in the second.
#[test]
fn bad_entries() {
    let folder = folder("import-bad");
    let all = tray(&results(0, 40));
    let many =
        |count: usize| String::from_iter((0..count).map(|n| format!("A={n}\n"))).into_bytes();
    let time = "it is 1 to 20 digits, and at most 2^64 - 1";
    let id = "it is 32 of 0-9 and a-f";
    for (bad, number, why) in [
        (
            other("TRAY=7\n", b"tray=7\n"),
            16,
            "field 3, tray=7: its name has 't', and only A-Z, 0-9 and _ are taken".to_string(),
        ),
        (
            other("TRAY=7\n", b"=7\n"),
            16,
            "field 3, =7: it has no name before the =".to_string(),
        ),
        (
            other("TRAY=7\n", &with_length(b"TRAY", &[b'\n'; 4_092])),
            16,
            format!("field 3, TRAY={}..: it has 4097 bytes, and 4096 are taken", "\\x0a".repeat(35)),
        ),
        (
            other("TRAY=7\n", &many(63)),
            16,
            "65 fields are given: an entry takes 64, and repeats count".to_string(),
        ),
        (
            other("LOT=0\nSTATE=sprouted\nTRAY=7\n", b"__LOT=0\n"),
            16,
            "it has stamps alone, and no field".to_string(),
        ),
        (
            other("__REALTIME_TIMESTAMP=1700000000000000\n", b""),
            24,
            "it has no __REALTIME_TIMESTAMP".to_string(),
        ),
        (
            other("__MONOTONIC_TIMESTAMP=50\n_BOOT_ID=", b"LOT="),
            24,
            "it has no __MONOTONIC_TIMESTAMP and no _BOOT_ID".to_string(),
        ),
        (
            other("TRAY=7\n", b"__MONOTONIC_TIMESTAMP=50\n"),
            23,
            "__MONOTONIC_TIMESTAMP is given twice".to_string(),
        ),
        (
            other("=1700000000000000\n", b"=\n"),
            23,
            format!("__REALTIME_TIMESTAMP is empty: {time}"),
        ),
        (
            other("TIMESTAMP=50\n", b"TIMESTAMP=18446744073709551616\n"),
            23,
            format!("__MONOTONIC_TIMESTAMP is 18446744073709551616: {time}"),
        ),
        (
            other("TIMESTAMP=50\n", b"TIMESTAMP=50\r\n"),
            23,
            format!("__MONOTONIC_TIMESTAMP is 50\\x0d: {time}"),
        ),
        (
            other("_BOOT_ID=05", b"_BOOT_ID=0A"),
            23,
            format!("_BOOT_ID is 0A{}: {id}", "05".repeat(15)),
        ),
        (
            other("TRAY=7\n", b"TRAY\n"),
            23,
            "the line TRAY has no =, so that a length of 8 bytes, the value and a newline come after \
             it; the length is "
                .to_string(),
        ),
        (
            other("TRAY=7\n", b"TRAY\n\x01\0\0\0\0\0\0\x0077\n"),
            23,
            "the line TRAY has no =, so that a length of 8 bytes, the value and a newline come after \
             it; the length is 1, and no newline is there"
                .to_string(),
        ),
    ] {
        for place in [0, 3, 36] {
            let text = [&all[..place].concat(), &bad[..], &all[place..].concat()].concat();
            stops(&folder, &text, place, number, &why);
        }
    }
}
