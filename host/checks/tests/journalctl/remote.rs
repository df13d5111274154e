//! What is exported goes through `systemd-journal-remote`, as another bank takes it: the file that it writes
//! has the same stamps and payloads, by journalctl and by the archive.
//!
//! Where the program is not installed nothing is tried, and a line says so.
use std::io::Write;
use std::path::{Path, PathBuf};
use std::process::{Command, Stdio};
use std::sync::OnceLock;

use checks::corpus::{self, FILES};
use checks::random::Random;
use reading::layout::Layout;
use wrapper::{export, import, Exchanged};

use crate::entries::grown_in;
use crate::exchange::{cut, shown};
use crate::file::File;
use crate::payloads::kinds;
use crate::written::{append, new, nth, At};

/// Where distributions have it.
const PLACES: [&str; 2] = [
    "/usr/lib/systemd/systemd-journal-remote",
    "/lib/systemd/systemd-journal-remote",
];

/// The program, if it is there; otherwise a line that no test keeps to itself, once.
fn program() -> Option<&'static Path> {
    static PROGRAM: OnceLock<Option<&'static Path>> = OnceLock::new();
    *PROGRAM.get_or_init(|| {
        let program = PLACES.iter().map(Path::new).find(|path| path.exists());
        if program.is_none() {
            let line = "no systemd-journal-remote here: what it makes of the exports was NOT tried";
            writeln!(std::io::stderr(), "{line}").expect("standard error takes it");
        }
        program
    })
}

/// How it writes a file: compact or not, keyed or not.
const WAYS: [[&str; 2]; 4] = [["0", "0"], ["0", "1"], ["1", "0"], ["1", "1"]];

/// The file that it writes of a text of many entries, which goes when this does.
struct Received(PathBuf);

impl Received {
    fn new(program: &Path, text: &[u8], [compact, keyed]: [&str; 2]) -> Received {
        let name = format!("{}-{:p}.journal", std::process::id(), text);
        let path = Path::new(env!("CARGO_TARGET_TMPDIR")).join(name);
        let mut child = Command::new(program)
            .env_clear()
            .env("SYSTEMD_JOURNAL_COMPACT", compact)
            .env("SYSTEMD_JOURNAL_KEYED_HASH", keyed)
            .arg("--compress=no")
            .arg(format!("--output={}", path.display()))
            .arg("-")
            .stdin(Stdio::piped())
            .stderr(Stdio::piped())
            .spawn()
            .expect("systemd-journal-remote runs");
        let mut input = child.stdin.take().expect("a pipe");
        input.write_all(text).expect("it takes all");
        drop(input);
        let output = child.wait_with_output().expect("it ends");
        let said = String::from_utf8_lossy(&output.stderr);
        assert!(output.status.success(), "{said}");
        // It says what it passes over.
        let last = said.trim_end().lines().last().unwrap_or("");
        assert!(last.starts_with("Finishing after writing "), "{said}");
        assert_eq!(said.trim_end().lines().count(), 1, "{said}");
        Received(path)
    }

    fn image(&self) -> Vec<u8> {
        std::fs::read(&self.0).expect("the file is there")
    }
}

impl Drop for Received {
    fn drop(&mut self) {
        std::fs::remove_file(&self.0).expect("the file is there");
    }
}

/// With the payloads in an order of their own: a file has them in the order of its DATA.
fn sorted(entry: &Exchanged) -> (u64, u64, [u8; 16], Vec<Vec<u8>>) {
    let payloads = entry.fields.payloads();
    let mut payloads: Vec<Vec<u8>> = payloads.map(<[u8]>::to_vec).collect();
    payloads.sort();
    (entry.realtime, entry.monotonic, entry.boot_id, payloads)
}

/// Sends the entries of a file that go out; their number.
fn sent(program: &Path, image: &[u8]) -> usize {
    let (mut text, mut entries) = (Vec::new(), Vec::new());
    for entry in wrapper::all_entries(image).expect("it opens") {
        match export(image, entry.offset) {
            Ok(one) => text.extend(one.expect("it is committed")),
            Err(refusal) => {
                assert_eq!(refusal.number(), 16);
                continue;
            }
        }
        entries.push(sorted(&shown(&entry)));
    }
    for way in WAYS {
        let received = Received::new(program, &text, way).image();
        // By the archive: it opens, and shows these entries.
        assert_eq!(wrapper::open(&received), Ok(()));
        let there = wrapper::all_entries(&received).expect("it opens");
        let theirs: Vec<_> = there.iter().map(|entry| sorted(&shown(entry))).collect();
        assert!(theirs == entries, "other entries by the archive, {way:?}");
        // By journalctl, whose text is imported; and out of the archive once more.
        let exported = File::new(&received).prints(&["--output=export"]);
        let theirs = cut(&exported).into_iter().map(import);
        let theirs: Vec<_> = theirs.map(|it| sorted(&it.expect("a text"))).collect();
        assert!(theirs == entries, "other entries by journalctl, {way:?}");
        for (entry, expected) in there.iter().zip(&entries) {
            let text = export(&received, entry.offset).expect("it opens");
            let back = import(&text.expect("it is committed")).expect("a text");
            assert!(sorted(&back) == *expected);
        }
    }
    entries.len()
}

#[test]
fn files_of_the_archive() {
    let Some(program) = program() else { return };
    for (layout, header_size, keyed) in [(Layout::Regular, 256, 0), (Layout::Compact, 272, 1)] {
        let random = &mut Random::new(950 + keyed);
        let image = grown_in(layout, header_size, random, (33, 7), keyed, 100);
        assert_eq!(sent(program, &image), 100);
    }
}

#[test]
fn payloads_of_every_kind() {
    let Some(program) = program() else { return };
    let mut image = new(262_144, (7, 3), 1);
    for (payloads, n) in kinds().iter().zip(1..) {
        append(&mut image, nth(n), payloads);
    }
    assert_eq!(sent(program, &image), kinds().len());
}

/// The least and the greatest that it takes, and several boots.
#[test]
fn stamps() {
    let Some(program) = program() else { return };
    const LAST_TIME: u64 = (1 << 55) - 1;
    let mut image = new(65_536, (3, 2), 1);
    let random = &mut Random::new(951);
    let mut seqnum = 0;
    for realtime in [1, 9, 10, 1_000_000, LAST_TIME - 1, LAST_TIME] {
        for monotonic in [0, 9, 10, LAST_TIME] {
            seqnum += 1;
            let boot = random.array();
            let at = At {
                boot,
                seqnum,
                realtime,
                monotonic,
            };
            append(&mut image, at, &[format!("N={seqnum}").into_bytes()]);
        }
    }
    assert_eq!(sent(program, &image), 24);
}

#[test]
fn files_of_journald() {
    let Some(program) = program() else { return };
    let counts = FILES.map(|(name, _)| sent(program, &corpus::image(name)));
    println!("sent of journald's files: {counts:?}");
    assert!(counts.iter().all(|&count| count > 0));
}
