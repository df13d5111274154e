//! Sequence numbers and times at their ends, and several boots. journalctl wants a wall time from 1
//! to 2^55 - 1 and a monotonic time below 2^55; the archive takes any.
use crate::check::check;
use crate::written::{append, new, At};

const LAST_TIME: u64 = (1 << 55) - 1;

fn file(entries: &[At]) {
    for keyed in [0, 1] {
        let mut image = new(16_384, (3, 2), keyed);
        for (n, &at) in entries.iter().enumerate() {
            let own = format!("MESSAGE=entry {n}").into_bytes();
            append(&mut image, at, &[own, b"STATE=wet".to_vec()]);
            check(&image, n + 1);
        }
    }
}

fn at(boot: u8, seqnum: u64, realtime: u64, monotonic: u64) -> At {
    At {
        boot: [boot; 16],
        seqnum,
        realtime,
        monotonic,
    }
}

/// An entry of one boot.
fn of_seqnum(seqnum: u64) -> At {
    at(5, seqnum, 1_700_000_000_000_000, 50)
}

#[test]
fn sequence_numbers() {
    let low = [1, 2, 3, 1_000, (1 << 32) - 1, 1 << 32];
    let half = [(1 << 63) - 1, 1 << 63, (1 << 63) + 1];
    let high = [u64::MAX - 1, u64::MAX];
    let numbers = [&low[..], &half, &high].concat();
    file(&numbers.into_iter().map(of_seqnum).collect::<Vec<At>>());
    file(&[of_seqnum(u64::MAX)]);
}

#[test]
fn times() {
    let times = [1, 1, 2, 1_000_000, LAST_TIME - 1, LAST_TIME, LAST_TIME];
    let entries = (1..).zip(times);
    file(
        &entries
            .map(|(n, time)| at(5, n, time, 50))
            .collect::<Vec<At>>(),
    );
    let times = [0, 0, 1, 1_000_000, LAST_TIME - 1, LAST_TIME, LAST_TIME];
    let entries = (1..).zip(times);
    file(
        &entries
            .map(|(n, time)| at(5, n, 50, time))
            .collect::<Vec<At>>(),
    );
    file(&[at(5, 1, 1, 0)]);
    file(&[at(5, 1, LAST_TIME, LAST_TIME)]);
}

/// Each boot has a monotonic time of its own, also one that comes back.
#[test]
fn boots() {
    let early = [at(5, 1, 10, 10), at(5, 8, 11, 20), at(6, 15, 11, 3)];
    let later = [at(6, 22, 13, 4), at(5, 29, 14, 1), at(255, 36, 15, 0)];
    let last = [at(1, 43, 16, LAST_TIME), at(6, 50, 17, 2), at(5, 57, 18, 1)];
    file(&[early, later, last].concat());
}
