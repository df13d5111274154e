//! The C program that appends: whole, and ended at each of its syncs.
use crate::page::{blocks, built, folder};
use checks::corpus;
use std::path::{Path, PathBuf};
use std::process::{Command, Output};
use std::time::{SystemTime, UNIX_EPOCH};
use wrapper::{carry_out, stores, sync_points, Fields, Offset, Request};

/// In the place of the system's sync: ends the program at the n-th one.
const SYNC: &str = r#"
#include <signal.h>
#include <stdlib.h>
int counted_sync(void *at, size_t len, int flags) {
    static int count;
    const char *last = getenv("KILL_AT");
    if (last != NULL && ++count == atoi(last))
        raise(SIGKILL);
    return at == NULL || len == 0 || flags != 4;
}
"#;

/// The fields that are typed: a new one and an old one.
const TYPED: [&str; 2] = ["NOTE=x=y", "LOT=12"];

fn program(folder: &Path) -> PathBuf {
    let sync = folder.join("sync.c");
    std::fs::write(&sync, SYNC).expect("a file for the sync");
    let more = ["-Dmsync=counted_sync", sync.to_str().expect("text")];
    built(folder, blocks()[2], &more)
}

fn typed(program: &Path, file: &Path, kill_at: usize) -> Output {
    let mut command = Command::new(program);
    command.env("KILL_AT", kill_at.to_string());
    command.arg(file).args(TYPED).output().expect("it runs")
}

/// Packs fields and makes a request of them, which is given to `with`.
fn asked<T>(fields: &[&str], stamp: (u64, u64, u64, [u8; 16]), with: impl Fn(&Request) -> T) -> T {
    let mut packed = Fields::new();
    for field in fields {
        packed.add_payload(field).expect("it is short");
    }
    let (seqnum, realtime, monotonic, boot) = stamp;
    with(&Request {
        machine: &[7; 16],
        boot: &boot,
        seqnum,
        realtime,
        monotonic,
        fields: packed.packed(),
    })
}

/// A file with two entries of one field, the last with number 5.
fn made() -> Vec<u8> {
    let mut image = vec![0; 16_384];
    wrapper::new(&mut image, &[7; 64], 3, 2, true, 256).expect("it is made");
    for seqnum in [4, 5] {
        let stamp = (seqnum, 1_700_000_000_000_000, 1, [8; 16]);
        let list = asked(&["LOT=12"], stamp, |it| stores(&image, it)).expect("it is taken");
        carry_out(&mut image, &list, list.len() as u64 / 16).expect("it is carried out");
    }
    image
}

/// The boot's id, by its digits.
fn boot() -> [u8; 16] {
    let text = std::fs::read_to_string("/proc/sys/kernel/random/boot_id").expect("an id");
    let number = u128::from_str_radix(&text.trim().replace('-', ""), 16).expect("digits");
    number.to_be_bytes()
}

fn word(image: &[u8], at: u64) -> u64 {
    u64::from_le_bytes(image[at as usize..][..8].try_into().expect("8 bytes"))
}

/// Microseconds since 1970.
fn now() -> u64 {
    let since = SystemTime::now().duration_since(UNIX_EPOCH);
    since.expect("after 1970").as_micros() as u64
}

#[test]
fn the_program_that_appends() {
    let folder = folder("appending");
    let (program, path) = (program(&folder), folder.join("one.journal"));
    let before = made();
    std::fs::write(&path, &before).expect("a file");
    let start = now();
    let output = typed(&program, &path, 0);
    let end = now();
    let after = std::fs::read(&path).expect("the file");
    let Offset(entry) = wrapper::by_seqnum(&after, 6)
        .expect("it opens")
        .expect("the new entry");

    // The clocks: a machine has been up for a smaller part of the time since 1970.
    let (realtime, monotonic) = (word(&after, entry + 24), word(&after, entry + 32));
    assert!((start..=end).contains(&realtime), "{start} {realtime}");
    assert!((1..start / 2).contains(&monotonic), "{monotonic}");

    // What the wrapper does with the times that stand in the file.
    let list_of = |image: &[u8]| {
        let stamp = (6, word(image, entry + 24), word(image, entry + 32), boot());
        asked(&TYPED, stamp, |it| stores(&before, it)).expect("it is taken")
    };
    let cut = |image: &[u8], end: usize| {
        let mut expected = before.clone();
        carry_out(&mut expected, &list_of(image), end as u64).expect("it is carried out");
        expected
    };
    let list = list_of(&after);
    let count = list.len() / 16;
    assert!(after == cut(&after, count));
    let words = format!("appended 6, {count} stores\n");
    assert_eq!(String::from_utf8_lossy(&output.stdout), words);
    assert_eq!(output.status.code(), Some(0));

    let points = sync_points(&list);
    assert_eq!(points.len(), 6);
    for (point, n) in points.into_iter().zip(1..) {
        std::fs::write(&path, &before).expect("a file");
        assert_eq!(typed(&program, &path, n).status.code(), None, "at sync {n}");
        let image = std::fs::read(&path).expect("the file");
        assert!(image == cut(&image, point), "at sync {n}");
    }
    assert_eq!(typed(&program, &path, 7).status.code(), Some(0));
}

/// A refusal is printed, and the file is as it was; what is no file is a fault.
#[test]
fn what_it_refuses() {
    let folder = folder("refused");
    let (program, path) = (program(&folder), folder.join("one.journal"));
    for (before, number) in [
        (corpus::image("sealed-bullseye-c0-system"), 12),
        (corpus::image("bullseye-k1-c0-online"), 13),
        (corpus::image("bookworm-k1-c0-system"), 25),
        (corpus::compressed(), 4),
    ] {
        std::fs::write(&path, &before).expect("a file");
        let output = typed(&program, &path, 0);
        let words = format!("refused {number}\n");
        assert_eq!(String::from_utf8_lossy(&output.stdout), words);
        assert_eq!(output.status.code(), Some(1));
        assert!(std::fs::read(&path).expect("the file") == before);
    }
    let missing = folder.join("missing");
    assert_eq!(typed(&program, &missing, 0).status.code(), Some(2));
}
