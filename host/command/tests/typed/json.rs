//! `-o json`: one object a line, as `journalctl -o json` has it.
use crate::person::{append, folder, made, options, program, said, typed};
use crate::two::{both, of_two};
use std::ffi::OsStr;
use std::os::unix::ffi::OsStrExt;

/// What every object begins with.
fn start(seqnum: u64) -> String {
    format!(
        "{{\"__SEQNUM\":\"{seqnum}\",\"__REALTIME_TIMESTAMP\":\"170000000000000{seqnum}\",\
         \"__MONOTONIC_TIMESTAMP\":\"{}\",\"_BOOT_ID\":\"05050505050505050505050505050505\"",
        50 + seqnum
    )
}

#[test]
fn an_object_a_line() {
    let path = made(&folder("json"), "one.journal", "65536");
    append(
        &path,
        1,
        &["LOT=7", "RESULT=good \"dry\"\tC:\\new\nline", "EMPTY="],
    )
    .done();
    append(&path, 2, &["LOT=12", "LOT=13", "RESULT=Grüße \u{1f331}"]).done();
    let lines = [
        start(1) + r#","LOT":"7","RESULT":"good \"dry\"\tC:\\new\nline","EMPTY":""}"# + "\n",
        start(2) + ",\"LOT\":[\"12\",\"13\"],\"RESULT\":\"Grüße \u{1f331}\"}\n",
    ];
    let listed = |words: &[&str]| typed("list", &path, words).done();
    assert_eq!(listed(&["-o", "json"]), lines.concat());
    assert_eq!(listed(&["-o", "json", "--no-header"]), lines.concat());
    let words = ["--field", "LOT=13", "-ojson", "--fields", "LOT,NONE"];
    let found = typed("find", &path, &words).done();
    assert_eq!(found, start(2) + ",\"LOT\":[\"12\",\"13\"]}\n");
    assert_eq!(listed(&["-o", "json", "-n", "0"]), "");
}

/// What is no text, or has control characters, is an array of bytes; what is not seen is escaped.
#[test]
fn what_is_no_text() {
    let path = made(&folder("json-bytes"), "one.journal", "65536");
    let fields: [&[u8]; 7] = [
        b"A=\xff\xfe",
        b"B=bold\x1b",
        b"C=one",
        b"C=\x01\x02",
        b"D=\x7f",
        "E=next\u{85}".as_bytes(),
        "F=\u{a0}\u{202e}\u{e0001}".as_bytes(),
    ];
    let mut command = program();
    command.arg("append").arg(&path).args(options(1));
    said(command.args(fields.map(OsStr::from_bytes))).done();
    let expected = start(1)
        + r#","A":[255,254],"B":[98,111,108,100,27],"C":["one",[1,2]],"D":[127]"#
        + r#","E":[110,101,120,116,194,133],"F":"\u00a0\u202e\udb40\udc01"}"#
        + "\n";
    assert_eq!(typed("list", &path, &["-o", "json"]).done(), expected);
}

/// A boot id among the fields is given once where it is the entry's own, as journald writes it.
#[test]
fn the_boot_id() {
    let path = made(&folder("json-boot"), "one.journal", "65536");
    append(
        &path,
        1,
        &["_BOOT_ID=05050505050505050505050505050505", "A=1"],
    )
    .done();
    append(&path, 2, &["_BOOT_ID=other"]).done();
    let listed = typed("list", &path, &["-o", "json"]).done();
    let (one, two) = listed.split_once('\n').expect("two lines");
    assert_eq!(one, start(1) + ",\"A\":\"1\"}");
    let both = "\"_BOOT_ID\":[\"05050505050505050505050505050505\",\"other\"]}\n";
    assert!(two.ends_with(both), "{two}");
}

#[test]
fn of_two_files() {
    let files = both(&folder("two-json"), 4);
    let listed = of_two("list", &files, &["-o", "json", "-n", "2"]).done();
    let line = |file: u64, seqnum: u64, state: &str| {
        let rest = &start(seqnum)[1..];
        format!("{{\"file\":\"{file}\",{rest},\"STATE\":\"{state}\"}}\n")
    };
    assert_eq!(listed, line(1, 5, "dead") + &line(2, 7, "lost"));
}
