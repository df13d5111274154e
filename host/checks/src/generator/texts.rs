//! Texts in the Journal Export Format, good ones and others.
use super::dice::{between, edge, once_in, pick, shuffle};
use super::text_fields::{either, lying, name, stamp, value, wrong_stamp};
use crate::random::Random;
use reading::exchange::{BOOT_ID, MONOTONIC, REALTIME};

/// A field as a line.
pub fn line(name: &[u8], value: &[u8]) -> Vec<u8> {
    [name, b"=", value, b"\n"].concat()
}

/// A field with its length.
pub fn counted(name: &[u8], value: &[u8]) -> Vec<u8> {
    saying(name, value.len() as u64, value)
}

/// A field that says some length.
pub fn saying(name: &[u8], length: u64, value: &[u8]) -> Vec<u8> {
    [name, b"\n", &length.to_le_bytes(), value, b"\n"].concat()
}

/// A text of fields.
pub fn closed(fields: &[Vec<u8>]) -> Vec<u8> {
    [&fields.concat()[..], b"\n"].concat()
}

/// The fields of the stamps, by their names and values.
pub const STAMPS: [(&[u8], &[u8]); 3] = [
    (REALTIME, b"1700000000000000"),
    (MONOTONIC, b"50"),
    (BOOT_ID, b"0123456789abcdef0011223344556677"),
];

/// The fields of a text that is mostly taken: the stamps at any place, and others.
fn fields(random: &mut Random) -> Vec<Vec<u8>> {
    let mut fields = Vec::new();
    let count = match random.below(20) {
        0 => between(random, 60, 100),
        _ => between(random, 0, 6),
    };
    for _ in 0..count {
        let again = !fields.is_empty() && once_in(random, 8);
        fields.push(match again {
            true => pick(random, &fields),
            false => {
                let (name, value) = (name(random), value(random));
                either(random, &name, &value)
            }
        });
    }
    fields.extend((0..3).map(|place| stamp(random, place)));
    match random.below(4) {
        0 => {}
        1 => fields.rotate_right(3),
        _ => shuffle(random, &mut fields),
    }
    fields
}

/// Bytes that mean something in a text, in any order.
fn soup(random: &mut Random) -> Vec<u8> {
    let mut text = Vec::new();
    for _ in 0..between(random, 0, 30) {
        text.extend(match random.below(12) {
            0 | 1 => b"\n".to_vec(),
            2 => b"=".to_vec(),
            3 => name(random),
            4 => value(random),
            5 => edge(random, 8).to_le_bytes().to_vec(),
            6 => (random.below(20) as u64).to_le_bytes().to_vec(),
            7 | 8 => {
                let place = random.below(3);
                stamp(random, place)
            }
            9 => wrong_stamp(random),
            10 => lying(random),
            _ => {
                let (name, value) = (name(random), value(random));
                either(random, &name, &value)
            }
        });
    }
    text
}

/// Changes some bytes anywhere.
fn changed(random: &mut Random, text: &mut Vec<u8>) {
    for _ in 0..pick(random, &[1, 1, 2, 5]) {
        let at = random.below(text.len() + 1);
        let byte = match random.below(3) {
            0 => random.word() as u8,
            _ => pick(random, b"\n\n\n=A_0\0\xff"),
        };
        match random.below(4) {
            0 => text.insert(at, byte),
            1 => text.truncate(at),
            _ if at == text.len() => text.push(byte),
            2 => text[at] = byte,
            _ => _ = text.remove(at),
        }
    }
}

/// A text that is taken, but that 16 may refuse it for its other fields.
pub fn good(random: &mut Random) -> Vec<u8> {
    closed(&fields(random))
}

/// A text of any kind.
pub fn any(random: &mut Random) -> Vec<u8> {
    let mut fields = fields(random);
    let place = random.below(fields.len());
    match random.below(8) {
        0 => _ = fields.remove(place),
        1 => {
            let other = wrong_stamp(random);
            fields.insert(place, other);
        }
        2 => {
            // In the stamp's place, so that it is not given twice.
            let other = wrong_stamp(random);
            let name = |field: &[u8]| STAMPS.iter().position(|it| field.starts_with(it.0));
            fields.retain(|field| name(field) != name(&other));
            fields.push(other);
        }
        3 => fields[place] = lying(random),
        4 => {
            let mut text = closed(&fields);
            changed(random, &mut text);
            return text;
        }
        5 => return soup(random),
        _ => {}
    }
    closed(&fields)
}
