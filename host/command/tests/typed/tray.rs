//! A tray of results: lines for `append --batch`, and what it is to do to a file, by the independent
//! reading.
use crate::person::{program, Said, BOOT, MACHINE};
use reading::carry::{carry_out, Store};
use reading::plan::{groups, write};
use reading::request::{packed, Request};
use reading::siphash::siphash24;
use std::io::Write;
use std::path::{Path, PathBuf};
use std::process::{Command, Stdio};

/// Some results, numbered from one on: old and new values, and the same again.
pub fn results(from: usize, count: usize) -> Vec<Vec<String>> {
    let result = |n: usize| {
        let state = ["sprouted", "dead", "hard"][n % 3];
        vec![
            format!("LOT={}", n / 2),
            format!("STATE={state}"),
            "TRAY=7".to_string(),
        ]
    };
    (from..from + count).map(result).collect()
}

/// As they are typed.
pub fn lines(results: &[Vec<String>]) -> String {
    let lines = results.iter().map(|fields| fields.join("\t") + "\n");
    lines.collect()
}

/// A batch, and what it does.
pub struct Planned {
    /// Its list of stores, "group 1 once, groups 2 to 7 of each entry in turn, group 8 once".
    pub list: Vec<u8>,
    /// After how many stores a host syncs.
    pub points: Vec<usize>,
    pub after: Vec<u8>,
}

/// The stamps of every batch here, but for the sequence numbers.
pub const REALTIME: u64 = 1_700_000_000_000_000;
pub const MONOTONIC: u64 = 50;

pub fn planned(image: &[u8], first: u64, results: &[Vec<String>]) -> Planned {
    let mut after = image.to_vec();
    let (mut all, mut points): (Vec<Store>, _) = (Vec::new(), Vec::new());
    let mut last = Vec::new();
    for (fields, seqnum) in results.iter().zip(first..) {
        let fields: Vec<&[u8]> = fields.iter().map(|field| field.as_bytes()).collect();
        let request = Request {
            machine_id: [2; 16],
            boot_id: [5; 16],
            seqnum,
            realtime: REALTIME,
            monotonic: MONOTONIC,
            fields: &packed(&fields),
        };
        let groups = groups(&after, &request).expect("taken");
        let stores = list(groups.concat());
        assert_eq!(carry_out(&mut after, &stores, stores.len() as u64 / 16), 0);
        for (group, number) in groups.into_iter().zip(1..) {
            match number {
                1 if seqnum > first => {}
                8 => last = group,
                _ => all.extend(group),
            }
            let with_the_next = number == 1 || number == 5 || number == 8;
            if !with_the_next && points.last() != Some(&all.len()) {
                points.push(all.len());
            }
        }
    }
    all.extend(last);
    points.push(all.len());
    Planned {
        list: list(all),
        points,
        after,
    }
}

fn list(stores: Vec<Store>) -> Vec<u8> {
    let mut list = vec![0; 16 * stores.len()];
    write(&Ok(stores), &mut list);
    list
}

/// A redo list, by its page.
pub fn redo_list(image: &[u8], stores: &[u8]) -> Vec<u8> {
    let key: [u8; 16] = image[24..40].try_into().expect("a file id");
    let (length, count) = (image.len() as u64, stores.len() as u64 / 16);
    let head = [
        b"JRNLREDO",
        &key[..],
        &length.to_le_bytes(),
        &count.to_le_bytes(),
    ];
    let head = head.concat();
    let checksum = siphash24(&key, &[&head, stores].concat());
    [&head, &checksum.to_le_bytes()[..], stores].concat()
}

/// Where the redo list of a file stands.
pub fn beside(path: &Path) -> PathBuf {
    PathBuf::from(format!("{}.redo", path.display()))
}

/// `append --batch` with all that could be chosen for it.
pub fn batch(command: &mut Command, path: &Path, first: u64, text: &[u8], words: &[&str]) -> Said {
    let [seqnum, realtime, monotonic] = [first, REALTIME, MONOTONIC].map(|it| it.to_string());
    command.arg("append").arg("--batch").arg(path).args(words);
    command.args(["--machine", MACHINE, "--boot", BOOT, "--seqnum", &seqnum]);
    command.args(["--time", &realtime, "--monotonic", &monotonic]);
    said_to(command, text)
}

/// What a command said that was given a text.
pub fn said_to(command: &mut Command, text: &[u8]) -> Said {
    command.stdin(Stdio::piped());
    command.stdout(Stdio::piped()).stderr(Stdio::piped());
    let mut child = command.spawn().expect("it runs");
    let mut input = child.stdin.take().expect("a pipe");
    // It may have ended before it read anything.
    let _ = input.write_all(text);
    drop(input);
    Said::from(child.wait_with_output().expect("it ends"))
}

/// The same of some results.
pub fn appended(path: &Path, first: u64, results: &[Vec<String>], words: &[&str]) -> Said {
    batch(
        &mut program(),
        path,
        first,
        lines(results).as_bytes(),
        words,
    )
}
