//! Files whose clock was set, by the archive and by journalctl.
//!
//! `--verify` of systemd 252 passes them without a word: it compares the header's realtimes with the
//! first and the last entry, and no wall time with that of a neighbour. `-o export` shows the entries
//! in the archive's order. What is not compared for equality here:
//!
//! - what `--since` finds: it searches by halves, and where wall times fall it may find an entry after
//!   the first that fits, or none at all;
//! - the stream of two files by wall time, those of two seqnum ids and two boots: newer versions put
//!   boots in an order of their own. systemd 252 shows what the archive shows.
use crate::check::{check, exported, shown};
use crate::entries::logged;
use crate::export::Entry;
use crate::file::File;
use crate::streams::{both, file, same, Logged};
use crate::written::{append, new, nth, At};
use checks::generator::set_clock::{around, series};
use checks::random::Random;

/// What journalctl takes as a wall time.
const LAST_TIME: u64 = (1 << 55) - 1;

/// Wall times in the order of their entries, all of them such.
fn times() -> Vec<Vec<u64>> {
    let mut all: Vec<Vec<u64>> = series().into_iter().map(|(_, times)| times).collect();
    all.retain(|times| times.iter().all(|time| (1..=LAST_TIME).contains(time)));
    assert!(all.len() > 5);
    all.push(vec![LAST_TIME, 1, LAST_TIME - 1, 2, LAST_TIME, 1]);
    all
}

/// The n-th entry of one boot, from 1 on, at another wall time.
fn at(n: u64, realtime: u64) -> At {
    At { realtime, ..nth(n) }
}

#[test]
fn passed_and_shown() {
    for times in times() {
        for keyed in [0, 1] {
            let random = &mut Random::new(500 + keyed);
            let mut image = new(65_536, (3, 2), keyed);
            for (&time, n) in times.iter().zip(1..) {
                append(&mut image, at(n, time), &logged(random, n));
                if times.len() < 20 || n % 9 == 0 {
                    check(&image, n as usize);
                }
            }
        }
    }
}

/// The head and the tail are what `--verify` compares: with others it does not pass the file.
#[test]
fn the_ends_are_compared() {
    use checks::generator::frame::set;
    use reading::layout::header;
    let mut image = new(65_536, (3, 2), 1);
    for (time, n) in [50, 1, 90, 2].into_iter().zip(1..) {
        append(&mut image, at(n, time), &[b"STATE=wet".to_vec()]);
    }
    assert_eq!(File::new(&image).verify(), Ok(()));
    for (at, time) in [
        (header::HEAD_ENTRY_REALTIME, 1),
        (header::TAIL_ENTRY_REALTIME, 90),
    ] {
        let mut other = image.clone();
        set(&mut other, at, time);
        assert!(File::new(&other).verify().is_err(), "{time}");
    }
}

/// journalctl begins nowhere before the first in order, and at some times behind it.
#[test]
fn since() {
    let (mut alike, mut later) = (0, 0);
    for times in times() {
        let mut image = new(65_536, (3, 2), 1);
        for (&time, n) in times.iter().zip(1..) {
            append(&mut image, at(n, time), &[b"STATE=wet".to_vec()]);
        }
        let (file, all) = (File::new(&image), shown(&image));
        for t in around(&times) {
            if !(1..=LAST_TIME).contains(&t) {
                continue;
            }
            let first = wrapper::by_realtime(&image, t).expect("it opens");
            let ours = all
                .iter()
                .filter(|(offset, _)| first.is_some_and(|it| *offset >= it));
            let ours: Vec<Entry> = ours.map(|(_, entry)| entry.clone()).collect();
            let argument = format!("--since=@{}.{:06}", t / 1_000_000, t % 1_000_000);
            let theirs = exported(&file, &[&argument]);
            assert!(ours.ends_with(&theirs), "{argument} of {times:?}");
            match ours == theirs {
                true => alike += 1,
                false => later += 1,
            }
        }
    }
    println!("since: {alike} times alike, {later} times journalctl begins later or shows none");
    assert!(alike > 20);
}

/// Sixty entries in turns, with the wall time of the second file an hour behind and falling.
fn turns(random: &mut Random, seqnum_id: u8, boot: u8) -> [Vec<u8>; 2] {
    let mut files = [Logged::new(), Logged::new()];
    for n in 1..=60 {
        let place = random.below(2);
        let realtime = match place {
            0 => nth(n).realtime - 20_000 * (n / 20),
            _ => nth(61 - n).realtime - 3_600_000_000,
        };
        let mut at = at(n, realtime);
        if place == 1 {
            at.boot = [boot; 16];
        }
        files[place].push((at, logged(random, n)));
    }
    [file(4, 1, &files[0]), file(seqnum_id, 0, &files[1])]
}

/// By number under one seqnum id and by monotonic time in one boot, whatever the wall times say.
#[test]
fn streams() {
    let random = &mut Random::new(510);
    for (seqnum_id, boot) in [(4, 5), (4, 6), (6, 5)] {
        let [first, second] = turns(random, seqnum_id, boot);
        assert_eq!(same(&first, &second), 60, "{seqnum_id} and {boot}");
        assert_eq!(same(&second, &first), 60, "{seqnum_id} and {boot}");
    }
    let [first, second] = turns(random, 6, 6);
    let [ours, theirs] = both(&first, &second);
    assert_eq!(ours.len(), 60);
    assert!(theirs.iter().all(|entry| ours.contains(entry)));
    let alike = if ours == theirs {
        "the same"
    } else {
        "another"
    };
    println!("by wall time: journalctl shows {alike} stream");
}
