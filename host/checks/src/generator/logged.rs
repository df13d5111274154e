//! Two files of one machine, written by appends.
use super::clock::{Ranges, Stamped};
use super::compact::any_layout;
use super::dice::{between, pick, some_of};
use super::pairs::{seqnum_ids, Pair};
use crate::random::Random;
use reading::carry::carry_out;
use reading::new_file::{new_file, NewFile};
use reading::plan::append;
use reading::request::{packed, Request};

/// An entry that a file may get.
#[derive(Clone)]
struct Logged {
    at: Stamped,
    payloads: Vec<&'static [u8]>,
}

const PAYLOADS: [&[u8]; 4] = [b"A=1", b"A=2", b"STATE=wet", b"MESSAGE="];

/// The second file has copies of some of the first's entries, some that differ from one of them in
/// one thing, and entries of its own.
pub fn logged(random: &mut Random) -> Pair {
    let ranges = Ranges::new(random);
    let [one, other] = seqnum_ids(random);
    let first = entries(random, &ranges);
    let own = entries(random, &ranges);
    let mut second: Vec<Logged> = Vec::new();
    for entry in &first {
        match random.below(6) {
            0 | 1 => {}
            2 => second.push(changed(random, entry)),
            _ => second.push(entry.clone()),
        }
    }
    second.extend(some_of(random, &own));
    second.sort_by_key(|entry| entry.at.seqnum);
    [file(random, one, &first), file(random, other, &second)]
}

fn entries(random: &mut Random, ranges: &Ranges) -> Vec<Logged> {
    let mut clock = ranges.clock(random);
    let count = pick(random, &[0, 3, 5, 7]);
    let one = |_| Logged {
        at: clock.tick(random),
        payloads: payloads(random),
    };
    (0..count).map(one).collect()
}

fn payloads(random: &mut Random) -> Vec<&'static [u8]> {
    match &some_of(random, &PAYLOADS)[..] {
        [] => vec![PAYLOADS[0]],
        some => some.to_vec(),
    }
}

/// An entry with another number, boot or payload.
fn changed(random: &mut Random, entry: &Logged) -> Logged {
    let mut entry = entry.clone();
    let more = pick(random, &[1, u64::MAX]);
    match random.below(5) {
        0 => entry.at.seqnum = entry.at.seqnum.wrapping_add(more),
        1 => entry.at.realtime = entry.at.realtime.wrapping_add(more),
        2 => entry.at.monotonic = entry.at.monotonic.wrapping_add(more),
        3 => entry.at.boot_id[random.below(16)] ^= 1,
        _ => entry.payloads = payloads(random),
    }
    entry
}

/// A new file, made compact or not, with those of the entries that it takes, one after the other.
fn file(random: &mut Random, seqnum_id: [u8; 16], entries: &[Logged]) -> Vec<u8> {
    let new = NewFile {
        data_cells: between(random, 1, 5),
        field_cells: between(random, 1, 5),
        keyed: between(random, 0, 1),
        header_size: pick(random, &[256, 272]),
        file_id: random.array(),
        machine_id: [2; 16],
        boot_id: [3; 16],
        seqnum_id,
    };
    let mut image = vec![0; 4_096];
    assert_eq!(new_file(&mut image, &new), 0);
    any_layout(random, &mut image);
    let mut list = vec![0; 16 * 500];
    for Logged { at, payloads } in entries {
        let request = Request {
            machine_id: new.machine_id,
            boot_id: at.boot_id,
            seqnum: at.seqnum,
            realtime: at.realtime,
            monotonic: at.monotonic,
            fields: &packed(payloads),
        };
        let answer = append(&image, &request, &mut list);
        if answer.refusal == 0 {
            assert_eq!(carry_out(&mut image, &list, answer.stores), 0);
        }
    }
    image
}
