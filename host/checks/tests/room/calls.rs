//! Calls of every kind, each with the answer that it has to get.
use checks::generator::dice::pick;
use checks::random::Random;
use reading::batch;
use reading::request::{packed, Request};

use crate::file::{request, File, BOOT, LONG};
use checks::generator::written::MACHINE;

/// Too short for any append: an ENTRY alone has nine words.
const SHORT: usize = 16 * 9;

/// One call, any of those that are taken and refused. Where the file is near its end, 18 comes in the place
/// of a later answer, or of an earlier one of a later entry.
pub fn any(random: &mut Random, file: &mut File) {
    let next = file.seqnum + 1 + random.below(3) as u64;
    let fields = fields(random);
    let (answer, expected): (u64, &[u64]) = match random.below(16) {
        0..=5 => (file.append_as(&request(&fields, next), LONG), &[0, 18]),
        6..=8 => (good_batch(random, file, LONG), &[0, 18]),
        9 => {
            let fields = bad_fields(random);
            (file.append_as(&request(&fields, next), LONG), &[16])
        }
        10 => {
            let not_above = random.below(file.seqnum as usize + 1) as u64;
            (file.append_as(&request(&fields, not_above), LONG), &[17])
        }
        11 => {
            let list = random.below(SHORT);
            (file.append_as(&request(&fields, next), list), &[19, 18])
        }
        12 => {
            let machine = &[3; 16];
            let other = wrapper::Request {
                machine,
                ..request(&fields, next)
            };
            (file.append_as(&other, LONG), &[15])
        }
        13 => (no_batch(random, file), &[22]),
        14 => bad_batch(random, file),
        _ => {
            let list = random.below(SHORT);
            (good_batch(random, file, list), &[19, 18])
        }
    };
    assert!(expected.contains(&answer), "{answer}, and not {expected:?}");
}

/// The fields of an entry: some that come again and again, and some that are new.
pub fn fields(random: &mut Random) -> Vec<u8> {
    let state = pick(random, &["sown", "wet", "sprouted"]);
    let mut payloads = vec![format!("LOT={}", random.below(60))];
    if random.below(4) > 0 {
        payloads.push("TRAY=7".to_string());
    }
    if random.below(2) > 0 {
        payloads.push(format!("STATE={state}"));
    }
    if random.below(3) == 0 {
        payloads.push(format!("MESSAGE={:x}", random.word()));
    }
    let payloads: Vec<&[u8]> = payloads.iter().map(|it| it.as_bytes()).collect();
    packed(&payloads)
}

/// Fields that 16 refuses.
fn bad_fields(random: &mut Random) -> Vec<u8> {
    let long = [&b"TRAY="[..], &[b'7'; 4_092]].concat();
    match random.below(6) {
        0 => packed(&[]),
        1 => packed(&[b"TRAY=7", b"LOT"]),
        2 => packed(&[b"LOT=1", b"7LOT=1"]),
        3 => packed(&[b"LOT=1", &long]),
        4 => packed(&[&b"TRAY=7"[..]; 65]),
        _ => packed(&[b"TRAY=7"])[..7].to_vec(),
    }
}

/// Entries with these fields and numbers.
fn entries(packs: &[Vec<u8>], seqnums: impl Iterator<Item = u64>) -> Vec<u8> {
    let asked = packs.iter().zip(seqnums).map(|(fields, n)| Request {
        machine_id: MACHINE,
        boot_id: BOOT,
        seqnum: n,
        realtime: n,
        monotonic: n,
        fields,
    });
    batch::packed(&Vec::from_iter(asked))
}

/// The fields of 1 to 32 entries.
fn packs(random: &mut Random) -> Vec<Vec<u8>> {
    let count = 1 + random.below(32);
    (0..count).map(|_| fields(random)).collect()
}

fn good_batch(random: &mut Random, file: &mut File, list: usize) -> u64 {
    let packs = packs(random);
    let (first, count) = (file.seqnum + 1, packs.len() as u64);
    let entries = entries(&packs, first..);
    file.batch(&entries, count, file.seqnum + count, list)
}

/// A buffer that 1 to 32 entries do not fill.
fn no_batch(random: &mut Random, file: &mut File) -> u64 {
    let packs: Vec<Vec<u8>> = (0..33).map(|_| fields(random)).collect();
    let all = entries(&packs, file.seqnum + 1..);
    let buffer = match random.below(3) {
        0 => &[][..],
        1 => &all,
        // In the stamps of the first entry, or in its fields.
        _ => &all[..1 + random.below(45)],
    };
    file.batch(buffer, 33, file.seqnum + 33, LONG)
}

/// One entry of a batch is bad; the answer, and those that it may get.
fn bad_batch(random: &mut Random, file: &mut File) -> (u64, &'static [u64]) {
    let mut packs = packs(random);
    let (count, bad) = (packs.len() as u64, random.below(packs.len()));
    let first = file.seqnum + 1;
    let mut seqnums: Vec<u64> = (first..first + count).collect();
    let expected: &[u64] = match random.below(2) {
        0 => {
            packs[bad] = bad_fields(random);
            &[16, 18]
        }
        _ => {
            seqnums[bad] -= 1;
            &[17, 18]
        }
    };
    let entries = entries(&packs, seqnums.into_iter());
    let answer = file.batch(&entries, count, file.seqnum + count, LONG);
    (answer, expected)
}
