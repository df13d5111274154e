//! 22: "unless 1 to 32 entries fill the buffer". Only lengths are looked at, before any entry is judged.
use checks::generator::dice::pick;
use checks::random::Random;
use reading::batch::Answer;

use crate::made::{fields, made, numbered, refused, Tried, MACHINE, WRITTEN};

/// Three entries that a new file takes, and where each of them ends.
fn three() -> (Vec<u8>, [usize; 3]) {
    let payloads: [&[&str]; 3] = [&["A=1", "B=22"], &["A=1"], &["LOT=12", "NOTE="]];
    let lengths = payloads.map(|it| 44 + fields(it).len());
    let ends = [
        lengths[0],
        lengths[0] + lengths[1],
        lengths.iter().sum::<usize>(),
    ];
    let entries = numbered(1, &payloads);
    assert_eq!(entries.len(), ends[2]);
    (entries, ends)
}

/// A refusal's number and index, 0 and 0 where it is taken.
fn said(answer: Answer) -> (u64, u64) {
    (answer.refusal, answer.index)
}

#[test]
fn cut_at_every_byte() {
    let mut tried = Tried::default();
    let (entries, ends) = three();
    for kind in WRITTEN {
        let image = made(kind, 4_096, 2);
        for length in 0..=entries.len() {
            let answer = tried.batch(&image, MACHINE, &entries[..length]);
            let number = if ends.contains(&length) { 0 } else { 22 };
            assert_eq!(said(answer), (number, 0), "{length} bytes");
        }
    }
    tried.print("cut at every byte");
}

/// With bytes behind the last entry: 44 of them are an entry of length 0, if so their last four say.
#[test]
fn bytes_behind() {
    let mut tried = Tried::default();
    let (entries, _) = three();
    let image = made(WRITTEN[1], 4_096, 2);
    for more in 1..100 {
        for byte in [0, 1, 255] {
            let longer = [&entries[..], &vec![byte; more]].concat();
            let answer = tried.batch(&image, MACHINE, &longer);
            let expected = match (byte, more) {
                (0, 44) | (0, 88) => (16, 3),
                _ => (22, 0),
            };
            assert_eq!(said(answer), expected, "{more} of {byte}");
        }
    }
}

/// Every length that could be wrong by a wrapped sum, at each of the entries.
#[test]
fn lengths_of_every_kind() {
    let mut tried = Tried::default();
    let (entries, ends) = three();
    let image = made(WRITTEN[4], 4_096, 2);
    for start in [0, ends[0], ends[1]] {
        let right =
            u32::from_le_bytes(entries[start + 40..start + 44].try_into().expect("4 bytes"));
        let rest = (entries.len() - start - 44) as u32;
        let mut lengths = vec![
            0,
            1,
            1 << 31,
            u32::MAX,
            rest,
            rest + 1,
            rest.wrapping_sub(1),
        ];
        for near in [
            right,
            rest,
            0u32.wrapping_sub(44),
            0u32.wrapping_sub(start as u32),
        ] {
            lengths.extend((0..100).map(|far| near.wrapping_add(far)));
            lengths.extend((0..100).map(|far| near.wrapping_sub(far)));
        }
        lengths.extend((0..32).map(|bit| right ^ 1 << bit));
        for length in lengths {
            let mut entries = entries.clone();
            entries[start + 40..start + 44].copy_from_slice(&length.to_le_bytes());
            let answer = tried.batch(&image, MACHINE, &entries);
            match length {
                _ if length == right => assert_eq!(answer.refusal, 0),
                _ if length > rest => assert_eq!(said(answer), (22, 0), "{length}"),
                _ => assert!([16, 22].contains(&answer.refusal), "{length}"),
            }
        }
    }
    tried.print("lengths of every kind");
    assert!(tried.0[0] > 0 && tried.0[16] > 0 && tried.0[22] > 1_000);
}

/// 1 to 32 entries are taken, and none and more than 32 are 22, whatever is in them.
#[test]
fn numbers_of_entries() {
    let mut tried = Tried::default();
    for (kind, count) in WRITTEN
        .into_iter()
        .flat_map(|kind| (0..=40).map(move |n| (kind, n)))
    {
        let image = made(kind, 16_384, 3);
        let payloads: Vec<&[&str]> = vec![&["A=1"]; count];
        let entries = numbered(7, &payloads);
        let number = if (1..=32).contains(&count) { 0 } else { 22 };
        let answer = tried.batch(&image, MACHINE, &entries);
        assert_eq!(said(answer), (number, 0), "{count} entries");
        // Entries of no field are 16, where 22 lets them pass.
        let number = if (1..=32).contains(&count) { 16 } else { 22 };
        let answer = tried.batch(&image, MACHINE, &vec![0; 44 * count]);
        assert_eq!(said(answer), (number, 0), "{count} entries of no field");
        // Numbers and fields of the later ones do not matter for 22.
        let mut wrong = entries.clone();
        wrong.extend(numbered(0, &vec![&["no field"][..]; 33]));
        assert_eq!(tried.batch(&image, MACHINE, &wrong), refused(22, 0));
    }
    for count in [64, 65, 256, 1_000, 65_536] {
        let image = made(WRITTEN[0], 4_096, 1);
        assert_eq!(
            tried.batch(&image, MACHINE, &vec![0; 44 * count]),
            refused(22, 0)
        );
    }
    tried.print("numbers of entries");
}

/// An entry of length 0 among others is 16 at its index.
#[test]
fn an_entry_of_length_0() {
    let mut tried = Tried::default();
    let image = made(WRITTEN[6], 4_096, 2);
    let one: &[&str] = &["A=1"];
    for count in [1, 2, 5, 32] {
        for index in 0..count {
            let mut payloads = vec![one; count];
            payloads[index] = &[];
            let answer = tried.batch(&image, MACHINE, &numbered(1, &payloads));
            assert_eq!(answer, refused(16, index as u64));
        }
    }
}

/// Buffers of anything.
#[test]
fn any_bytes() {
    let mut tried = Tried::default();
    let image = made(WRITTEN[3], 8_192, 2);
    let (entries, ends) = three();
    for seed in 0..3_000 {
        let random = &mut Random::new(seed + 62_000);
        let length = random.below(300);
        let mut buffer = random.bytes(length);
        for at in (40..length.saturating_sub(3)).step_by(44) {
            let rest = (length - at - 4) as u32;
            let few = random.below(60) as u32;
            let length = pick(random, &[0, few, rest, rest / 2]);
            buffer[at..at + 4].copy_from_slice(&length.to_le_bytes());
        }
        if seed % 3 == 0 {
            let end = pick(random, &ends);
            buffer = [&entries[..end], &buffer].concat();
        }
        tried.batch(&image, MACHINE, &buffer);
    }
    tried.print("buffers of anything");
    assert!(tried.0[16] > 100 && tried.0[22] > 100);
}
