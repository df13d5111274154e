//! The fields of a request: how many, how long, how named, how packed.
use checks::generator::worked::request;
use checks::random::Random;
use reading::request::packed;

use crate::made::{fields, made, Tried};

#[test]
fn payloads_of_every_length() {
    let mut tried = Tried::default();
    let random = &mut Random::new(1);
    for keyed in [false, true] {
        let image = made(8192, (3, 2), keyed);
        for length in 0..=4_110 {
            // A length of 1 leaves no room for a name and `=`.
            let mut payload = b"A=".to_vec();
            payload.truncate(length);
            payload.extend(random.bytes(length.saturating_sub(2)));
            let number = match length {
                2..=4_096 => 0,
                _ => 16,
            };
            let fields = packed(&[&payload]);
            assert_eq!(
                tried.append(&image, request(&fields, 1, 0, 0)),
                number,
                "{length}"
            );
        }
    }
    tried.print("payloads of every length");
}

#[test]
fn names_of_every_length() {
    let mut tried = Tried::default();
    for keyed in [false, true] {
        let image = made(4096, (3, 2), keyed);
        for length in 0..=70 {
            for value in [&b""[..], b"=", b"1"] {
                let payload = [&vec![b'N'; length][..], b"=", value].concat();
                let number = if (1..=64).contains(&length) { 0 } else { 16 };
                let fields = packed(&[b"B=1", &payload]);
                assert_eq!(tried.append(&image, request(&fields, 1, 0, 0)), number);
            }
        }
    }
}

#[test]
fn names_of_every_byte() {
    let mut tried = Tried::default();
    let image = made(4096, (3, 2), true);
    for byte in 0..=255 {
        let letter = matches!(byte, b'A'..=b'Z' | b'_');
        let digit = byte.is_ascii_digit();
        for (payload, good) in [
            // The sign itself leaves an empty name.
            ([&[byte][..], b"A=1"].concat(), letter),
            ([&[byte][..], b"=1"].concat(), letter),
            // In the middle and at the end the sign ends the name.
            (
                [b"A", &[byte][..], b"A=1"].concat(),
                letter || digit || byte == b'=',
            ),
            (
                [b"A", &[byte][..], b"=1"].concat(),
                letter || digit || byte == b'=',
            ),
            // In a value every byte may stand.
            ([b"A=", &[byte][..]].concat(), true),
        ] {
            let number = if good { 0 } else { 16 };
            let fields = packed(&[&payload]);
            assert_eq!(
                tried.append(&image, request(&fields, 1, 0, 0)),
                number,
                "{payload:?}"
            );
        }
    }
}

/// 1 to 66 fields: all apart, all the same, in pairs, with names of their own or one name for all;
/// in one cell each, and in several.
#[test]
fn every_number_of_fields() {
    let mut tried = Tried::default();
    for (round, cells) in [(1, 1), (5, 3), (64, 40)].into_iter().enumerate() {
        let mut image = made(40_000, cells, round == 1);
        // Some of the payloads are old ones in the second pass.
        for seqnum in 1..=2 {
            for count in 0..=66 {
                for names in [1, 3, 100] {
                    let payload = |n: usize| format!("F{}={}", n % names, n * seqnum).into_bytes();
                    let apart: Vec<_> = (0..count).map(payload).collect();
                    let pairs: Vec<_> = (0..count).map(|n| payload(n / 2 * 2)).collect();
                    let same = vec![payload(7); count];
                    let number = if (1..=64).contains(&count) { 0 } else { 16 };
                    for payloads in [apart, pairs, same] {
                        let fields = fields(&payloads);
                        let ask = request(&fields, seqnum as u64, 0, 0);
                        assert_eq!(tried.append(&image, ask), number, "{count} fields");
                    }
                }
            }
            let every = (0..64).map(|n| format!("F{}={n}", n % 3).into_bytes());
            let fields = fields(&every.collect::<Vec<_>>());
            tried.carried(&mut image, request(&fields, seqnum as u64, 0, 0));
        }
    }
    tried.print("every number of fields");
}

/// A buffer cut at every byte, with bytes after it, and with other lengths in it.
#[test]
fn badly_packed() {
    let mut tried = Tried::default();
    let image = made(4096, (3, 2), false);
    let good = packed(&[b"MESSAGE=lot 12 due", b"A=", b"PRIORITY=2"]);
    let ends = [22, 28, 42];
    for length in 0..=good.len() {
        let number = if ends.contains(&length) { 0 } else { 16 };
        let fields = &good[..length];
        assert_eq!(tried.append(&image, request(fields, 1, 0, 0)), number);
    }
    for more in 1..12 {
        let fields = [&good[..], &vec![0; more][..]].concat();
        assert_eq!(tried.append(&image, request(&fields, 1, 0, 0)), 16);
    }
    for at in [0, 22, 28] {
        let is = u32::from_le_bytes(good[at..at + 4].try_into().expect("4 bytes"));
        let edges = [0, 1, is - 1, is + 1, is + 4, is + 10, 1 << 31, u32::MAX];
        let bits = (0..32).map(|bit| is ^ 1 << bit);
        for length in edges.into_iter().chain(bits) {
            let mut fields = good.clone();
            fields[at..at + 4].copy_from_slice(&length.to_le_bytes());
            tried.append(&image, request(&fields, 1, 0, 0));
        }
    }
    tried.print("badly packed");
}
