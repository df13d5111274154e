//! Opening files of the greatest length, full of entries as a seed store's controllers log them:
//! the archive against plain Rust with the same passes, and journalctl's check of the same file.
use crate::builder::Builder;
use crate::plain::open::open as plain_open;
use crate::plain::reads;
use crate::process::{self, time};
use crate::timing::{heading, measure_long, row};
use checks::generator::any::any;
use checks::random::Random;
use reading::layout::MOST_BYTES;
use std::hint::black_box;
use std::path::Path;
use wrapper::raw;

pub struct Full {
    pub label: String,
    pub image: Vec<u8>,
}

pub fn open() {
    same_answers();
    let full = [
        full(false, 4_095),
        full(true, 4_095),
        full(false, 65_536),
        full(true, 65_536),
    ];
    let plain: fn(&[u8]) -> u64 = black_box(plain_open);
    heading("open");
    for Full { label, image } in &full {
        assert_eq!(raw::open(image), 0);
        assert_eq!(plain(image), 0);
        let times = measure_long(
            60,
            || raw::open(black_box(image)),
            || plain(black_box(image)),
        );
        row(label, image.len(), &times);
    }
    journalctl(&full);
}

/// Only what answers the same can be compared.
fn same_answers() {
    for seed in 0..10_000 {
        let image = any(&mut Random::new(seed));
        if reads(&image) {
            assert_eq!(plain_open(&image), raw::open(&image));
        }
    }
}

/// The payloads of an entry: 5 to 8 fields, most of them with few values, one or two with a value
/// of their own.
pub fn payloads(random: &mut Random, n: u64) -> Vec<Vec<u8>> {
    let mut payloads = vec![
        format!("LOT={}", random.below(2_000)),
        format!(
            "STATE={}",
            ["sown", "wet", "sprouted", "dead"][random.below(4)]
        ),
        format!("CONTROLLER=chamber-{}", random.below(12)),
        format!("PRIORITY={}", random.below(8)),
        format!("MESSAGE=germination test {n} counted, {} of 50", n % 51),
    ];
    let more = [
        format!("SAMPLE={:012x}", n * 1_000_003),
        format!("TEMPERATURE={}.{}", random.below(20) + 4, random.below(10)),
        format!("OPERATOR={}", random.below(9)),
    ];
    payloads.extend(more.into_iter().filter(|_| random.below(2) == 0));
    payloads.into_iter().map(String::into_bytes).collect()
}

/// Sequence number, wall time and monotonic time of an entry.
pub fn facts(n: u64) -> [u64; 3] {
    [n + 1, 1_700_000_000_000_000 + 250_000 * n, 250_000 * n + 50]
}

/// A file of the greatest length with as many entries as fit.
pub fn full(keyed: bool, data_cells: u64) -> Full {
    full_but(keyed, data_cells, 0)
}

/// The same with so many bytes left.
pub fn full_but(keyed: bool, data_cells: u64, left: u64) -> Full {
    let builder = Builder::new(MOST_BYTES as usize, keyed, data_cells, 333);
    let (n, image) = fill(builder, left);
    let hash = if keyed { "siphash24" } else { "lookup3" };
    let label = format!("{n}, {data_cells}, {hash}");
    Full { label, image }
}

/// A file with as many entries as fit, and their number.
pub fn filled(length: usize, keyed: bool, data_cells: u64, field_cells: u64) -> (u64, Vec<u8>) {
    fill(Builder::new(length, keyed, data_cells, field_cells), 0)
}

fn fill(mut builder: Builder, left: u64) -> (u64, Vec<u8>) {
    let random = &mut Random::new(3);
    let mut n = 0;
    while builder.objects.room() >= left && builder.append(&payloads(random, n), facts(n)) {
        n += 1;
    }
    (n, builder.objects.image)
}

/// `journalctl --verify` of the same files, less what starting it takes; the best of some runs.
fn journalctl(full: &[Full]) {
    let Some(start) = time(15, || process::journalctl(&["--version"])) else {
        println!("journalctl is not installed: its check is not measured");
        return;
    };
    println!("journalctl --verify, less {start:.1?} for --version");
    for (i, Full { label, image }) in full.iter().enumerate() {
        let path = std::env::temp_dir().join(format!("bench-{}-{i}.journal", std::process::id()));
        std::fs::write(&path, image).expect("a file for journalctl");
        let file = format!("--file={}", path.display());
        match time(15, || process::journalctl(&[&file, "--verify"])) {
            Some(took) => println!("{label:<26} {:>10.1?}", took.saturating_sub(start)),
            None => println!("{label:<26} refused: {}", said(&file, &path)),
        }
        std::fs::remove_file(&path).expect("the file is there");
    }
}

/// What journalctl says of a file that it does not pass.
fn said(file: &str, path: &Path) -> String {
    match process::journalctl(&[file, "--verify"]).output() {
        Ok(output) => String::from_utf8_lossy(&output.stderr)
            .replace(&path.display().to_string(), "the file")
            .lines()
            .rev()
            .find(|line| !line.is_empty())
            .unwrap_or("nothing")
            .to_string(),
        Err(error) => error.to_string(),
    }
}
