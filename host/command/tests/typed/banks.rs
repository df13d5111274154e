//! Entries as they go from bank to bank: their text, by the page of systemd on its Journal Export Format, and the
//! two commands.
use crate::person::{program, Said, BOOT, MACHINE};
use crate::tray::{results, said_to, MONOTONIC, REALTIME};
use std::path::Path;

/// A field: a line, or where its value has other bytes than tabs and what prints in ASCII, its length before it.
pub fn field(payload: &[u8]) -> Vec<u8> {
    let end = payload
        .iter()
        .position(|&byte| byte == b'=')
        .expect("a name");
    let (name, value) = (&payload[..end], &payload[end + 1..]);
    match value.iter().all(|byte| matches!(byte, 9 | 32..=126)) {
        true => [payload, b"\n"].concat(),
        false => with_length(name, value),
    }
}

pub fn with_length(name: &[u8], value: &[u8]) -> Vec<u8> {
    let length = (value.len() as u64).to_le_bytes();
    [name, b"\n", &length, value, b"\n"].concat()
}

/// An entry: both times, the boot id, its fields and an empty line.
pub fn entry(realtime: u64, monotonic: u64, boot: &str, payloads: &[&[u8]]) -> Vec<u8> {
    let boot = boot.replace('-', "");
    let stamps = format!(
        "__REALTIME_TIMESTAMP={realtime}\n__MONOTONIC_TIMESTAMP={monotonic}\n_BOOT_ID={boot}\n"
    );
    let mut text = stamps.into_bytes();
    text.extend(payloads.iter().flat_map(|payload| field(payload)));
    text.push(b'\n');
    text
}

/// The entry that `person::append` makes.
pub fn appended(seqnum: u64, payloads: &[&[u8]]) -> Vec<u8> {
    let realtime = 1_700_000_000_000_000 + seqnum;
    entry(realtime, 50 + seqnum, BOOT, payloads)
}

/// The entries of a tray, each a text of its own.
pub fn tray(results: &[Vec<String>]) -> Vec<Vec<u8>> {
    let text = |fields: &Vec<String>| {
        let payloads = Vec::from_iter(fields.iter().map(|field| field.as_bytes()));
        entry(REALTIME, MONOTONIC, BOOT, &payloads)
    };
    results.iter().map(text).collect()
}

/// The first entry of a tray, with a part of its seven lines in another way.
pub fn other(from: &str, to: &[u8]) -> Vec<u8> {
    let text = tray(&results(0, 1)).concat();
    let text = String::from_utf8(text).expect("it is text");
    let (before, after) = text.split_once(from).expect("it is there");
    [before.as_bytes(), to, after.as_bytes()].concat()
}

/// What `export` prints of one file, or of two.
pub fn exported(files: &[&Path]) -> Vec<u8> {
    let output = program().arg("export").args(files).output();
    let output = output.expect("it runs");
    assert_eq!(
        (output.status.code(), &output.stderr[..]),
        (Some(0), &b""[..])
    );
    output.stdout
}

/// What `import` says to a text, on the machine of the files here.
pub fn imported(path: &Path, text: &[u8], words: &[&str]) -> Said {
    let mut command = program();
    command.arg("import").arg(path).args(words);
    said_to(command.args(["--machine", MACHINE]), text)
}
