//! Listing all entries: of files of at most 65,536 bytes by the program `list`, by plain Rust in this
//! process and by journalctl, and of one of the greatest length by many lookups at once, by one page
//! and by `journal list`.
use crate::many::{words, Many};
use crate::open::{filled, full};
use crate::plain::{lookup, open::open};
use crate::process::{journalctl, mean, spent};
use crate::timing::{heading, measure_long, measure_one, row};
use checks::corpus;
use checks::program;
use std::ffi::OsStr;
use std::fmt::Write;
use std::fs::File;
use std::hint::black_box;
use std::path::Path;
use std::process::Command;
use wrapper::raw;

const RUNS: usize = 300;

pub fn listing() {
    if !program::path().exists() {
        println!("the listing program is measured after `rt check list`");
        return;
    }
    let folder = std::env::temp_dir();
    let file = |name: &str| folder.join(format!("bench-{}-{name}", std::process::id()));
    let (empty, path) = (file("empty"), file("listed.journal"));
    std::fs::write(&empty, b"").expect("an empty file");
    println!("list and journalctl, less what starting them takes; plain Rust in this process");
    println!(
        "{:<16} {:>12} {:>12} {:>12} {:>12} {:>14} {:>14}",
        "entries, bytes",
        "list us",
        "its start",
        "plain us",
        "-o short us",
        "-o export us",
        "their start"
    );
    let (_, small) = filled(65_536, true, 233, 33);
    for image in [corpus::image("bullseye-k1-c0-online"), small] {
        let text = plain_listing(&image);
        assert_eq!(text, program::list(&image));
        std::fs::write(&path, &image).expect("a file to list");
        let file = format!("--file={}", path.display());
        let shown = |format: &str| journalctl(&[&file, "--quiet", "-o", format]);
        let [start, listed, version, short, export] = spent(
            RUNS,
            [
                &|| list(&empty),
                &|| list(&path),
                &|| journalctl(&["--version"]),
                &|| shown("short"),
                &|| shown("export"),
            ],
        );
        let less = |all: Option<f64>, start: Option<f64>| Some(all? - start?);
        let cell = |time: Option<f64>| time.map_or("-".to_string(), |it| format!("{it:.0}"));
        println!(
            "{:<16} {:>12} {:>12} {:>12.0} {:>12} {:>14} {:>14}",
            format!("{}, {}", text.lines().count() - 2, image.len()),
            cell(less(listed, start)),
            cell(start),
            measure_one(|| plain_listing(black_box(&image))) / 1e3,
            cell(less(short, version)),
            cell(less(export, version)),
            cell(version),
        );
    }
    longest(&path);
    if spent(1, [&|| journalctl(&["--version"])]) == [None] {
        println!("journalctl is not installed, so its listings are not measured");
    }
    for path in [empty, path] {
        std::fs::remove_file(path).expect("the file is there");
    }
}

/// All entries of a file of the greatest length, which the program does not take: opened once, and
/// then read in this process.
fn longest(path: &Path) {
    let image = full(true, 4_095).image;
    std::fs::write(path, &image).expect("a file to list");
    against_opening(path, &image);
    let file = format!("--file={}", path.display());
    let shown = |format: &str| journalctl(&[&file, "--quiet", "-o", format]);
    let [version, short, export] = spent(
        10,
        [&|| journalctl(&["--version"]), &|| shown("short"), &|| {
            shown("export")
        }],
    );
    let less = |all: Option<f64>| Some((all? - version?) / 1e3);
    let cell = |time: Option<f64>| time.map_or("-".to_string(), |it| format!("{it:.0} ms"));
    heading("all of 8 MiB");
    let offsets = words(&offsets(&image));
    let plain: fn(&[u8], &[u8]) -> u64 = black_box(plain_reading);
    assert_eq!(
        Many::Stamps.archive(&image, &offsets),
        plain(&image, &offsets)
    );
    let times = measure_long(
        60,
        || Many::Stamps.archive(black_box(&image), black_box(&offsets)),
        || plain(black_box(&image), black_box(&offsets)),
    );
    row("opened and read", image.len(), &times);
    println!(
        "journalctl -o short {}, -o export {}",
        cell(less(short)),
        cell(less(export))
    );
}

/// One page with all entries, and `journal list` as a process of its own, in openings of the same file.
fn against_opening(path: &Path, image: &[u8]) {
    let mut page = vec![0; image.len()];
    let count = raw::page_entries(image, 0, &mut page).count;
    let times = measure_long(
        60,
        || raw::page_entries(black_box(image), 0, &mut page).count,
        || raw::open(black_box(image)),
    );
    let row = |what: &str, took: f64| {
        let openings = took / times.plain;
        println!(
            "{what:<16} {count:>12} {:>12.1} {openings:>12.2}",
            took / 1e6
        );
    };
    println!(
        "{:<16} {:>12} {:>12} {:>12}",
        "8 MiB", "entries", "ms", "openings"
    );
    row("open", times.plain);
    row("one page", times.archive);
    let program = std::env::current_exe().map(|own| own.with_file_name("journal"));
    let program = program.expect("this program has a path");
    let journal = |last: &OsStr| {
        let mut command = Command::new(&program);
        command.arg("list").arg(last);
        command
    };
    let [listed, start] =
        [path.as_ref(), OsStr::new("--help")].map(|last| mean(40, || journal(last)));
    match (listed, start) {
        (Some(listed), Some(start)) => {
            row("journal list", listed.as_nanos() as f64);
            row("its start", start.as_nanos() as f64);
        }
        _ => println!("journal list is measured after `cargo build -p command`"),
    }
}

/// The offsets of all committed entries of an image that opens.
fn offsets(image: &[u8]) -> Vec<u64> {
    let entries = (0..).map(|place| lookup::entry(image, place));
    entries.take_while(|&entry| entry != 0).collect()
}

/// Opens the image, and adds up the sequence numbers of the entries at these offsets.
fn plain_reading(image: &[u8], offsets: &[u8]) -> u64 {
    assert_eq!(open(image), 0);
    Many::Stamps.plain(image, offsets)
}

fn list(input: &Path) -> Command {
    let mut command = Command::new(program::path());
    command.stdin(File::open(input).expect("the input is there"));
    command
}

/// What the program prints for an image that opens.
fn plain_listing(image: &[u8]) -> String {
    assert_eq!(open(image), 0);
    let mut text = "seqnum realtime monotonic fields\n".to_string();
    let mut place = 0;
    loop {
        let entry = lookup::entry(image, place);
        if entry == 0 {
            break;
        }
        let it = lookup::stamps(image, entry);
        let (seqnum, realtime, monotonic) = (it.seqnum, it.realtime, it.monotonic);
        writeln!(text, "{seqnum} {realtime} {monotonic} {}", it.items).expect("a string has room");
        place += 1;
    }
    writeln!(text, "entries {place}").expect("a string has room");
    text
}
