//! Entries as text and back: the archive against plain Rust, and all entries of a file of the greatest length,
//! in openings of that file and against journalctl.
use crate::open::{full, payloads};
use crate::plain::exchange;
use crate::process::{journalctl, mean};
use crate::timing::{heading, least_long, measure, row};
use checks::random::Random;
use std::hint::black_box;
use std::process::Command;
use std::time::Duration;
use wrapper::{raw, Exchanged, Fields, LONGEST_TEXT};

const BOOT: [u8; 16] = *b"0123456789abcdef";
const STAMPS: [u64; 2] = [1_700_000_000_000_000, 250_050];

pub fn exchange() {
    let long = |byte: u8| vec![[&b"NOTE="[..], &[byte; 4_091]].concat()];
    let entries = [
        ("a result", payloads(&mut Random::new(1), 12)),
        ("4 KiB of text", long(b'x')),
        ("4 KiB of bytes", long(200)),
    ];
    heading("text");
    for (label, payloads) in &entries {
        let (fields, bytes) = (packed(payloads), written(&packed(payloads)));
        let [mut one, mut other] = [vec![0; LONGEST_TEXT], vec![0; LONGEST_TEXT]];
        let times = measure(
            || raw::text(STAMPS[0], STAMPS[1], &BOOT, black_box(&fields), &mut one).len,
            || exchange::text(STAMPS[0], STAMPS[1], &BOOT, black_box(&fields), &mut other).1,
        );
        assert_eq!(one, other);
        row(label, bytes.len(), &times);
    }
    heading("import");
    for (label, payloads) in &entries {
        let text = written(&packed(payloads));
        let [mut one, mut other] = [vec![0; LONGEST_TEXT], vec![0; LONGEST_TEXT]];
        let times = measure(
            || raw::import(black_box(&text), &mut one).len,
            || exchange::import(black_box(&text), &mut other).map_or(0, |(.., len)| len),
        );
        assert_eq!(one, other);
        row(label, text.len(), &times);
    }
    all();
}

fn packed(payloads: &[Vec<u8>]) -> Vec<u8> {
    let mut fields = Fields::new();
    for payload in payloads {
        fields.add_payload(payload).expect("it is short");
    }
    fields.packed().to_vec()
}

fn written(fields: &[u8]) -> Vec<u8> {
    let mut text = vec![0; LONGEST_TEXT];
    let len = raw::text(STAMPS[0], STAMPS[1], &BOOT, fields, &mut text).len;
    text.truncate(len as usize);
    text
}

/// All entries of one file, read by pages.
fn all() {
    let image = full(true, 4_095).image;
    let texts = || {
        let entries = wrapper::entries(black_box(&image)).expect("it opens");
        entries.map(|entry| wrapper::text(&Exchanged::from(&entry)).expect("its fields are right"))
    };
    let texts_of_it: Vec<Vec<u8>> = texts().collect();
    let read = |text: &Vec<u8>| wrapper::import(black_box(text)).expect("it is an entry");
    let [opening, exported, imported] = least_long(
        20,
        [
            &mut || _ = black_box(raw::open(black_box(&image))),
            &mut || _ = black_box(texts().map(|text| text.len()).sum::<usize>()),
            &mut || {
                _ = black_box(
                    texts_of_it
                        .iter()
                        .map(read)
                        .filter(|it| it.monotonic > 0)
                        .count(),
                )
            },
        ],
    );
    println!(
        "{:<16} {:>12} {:>12} {:>12}",
        "8 MiB", "entries", "ms", "openings"
    );
    let row = |what: &str, took: f64| {
        let (count, openings) = (texts_of_it.len(), took / opening);
        println!(
            "{what:<16} {count:>12} {:>12.1} {openings:>12.2}",
            took / 1e6
        );
    };
    row("open", opening);
    row("export", exported);
    row("import", imported);
    let path = std::env::temp_dir().join(format!("bench-{}-exported.journal", std::process::id()));
    std::fs::write(&path, &image).expect("a file to export");
    let program = std::env::current_exe().map(|own| own.with_file_name("journal"));
    let program = program.expect("this program has a path");
    let journal = |whole: bool| {
        let mut command = Command::new(&program);
        match whole {
            true => command.arg("export").arg(&path),
            false => command.arg("--help"),
        };
        command
    };
    let file = format!("--file={}", path.display());
    // journal works in a thread of its own, so all of both programs is counted.
    let [ours, start] = [true, false].map(|whole| mean(40, || journal(whole)));
    let [theirs, version] = [&[&file, "--quiet", "-o", "export"][..], &["--version"]]
        .map(|words| mean(40, || journalctl(words)));
    let cell = |all: Option<Duration>, start: Option<Duration>| match (all, start) {
        (Some(all), Some(start)) => format!("{:.1} ms", (all - start).as_secs_f64() * 1e3),
        _ => "not measured".to_string(),
    };
    println!(
        "less what starting them takes: journal export {}, journalctl -o export {}",
        cell(ours, start),
        cell(theirs, version)
    );
    std::fs::remove_file(path).expect("the file is there");
}
