//! Fields of texts in the Journal Export Format, good ones and others.
use super::dice::{between, edge, once_in, pick};
use super::texts::{counted, line, saying, STAMPS};
use crate::random::Random;

/// Names that 16 lets pass, that are passed over, that are nearly those of the stamps, and that 16 refuses.
const GOOD: &[&[u8]] = &[
    b"A",
    b"MESSAGE",
    b"_PID",
    b"_",
    b"B2",
    b"_BOOT_IDS",
    b"_BOOT_I",
];
const PASSED: &[&[u8]] = &[
    b"__CURSOR",
    b"__",
    b"___",
    b"__a b\xff",
    b"__REALTIME_TIMESTAM",
    b"__REALTIME_TIMESTAMP_",
    b"__MONOTONIC_TIMESTAMPS",
    b"__BOOT_ID",
];
const BAD: &[&[u8]] = &[b"", b"a", b"1A", b"A B", b"\xc3\x84", b"-", b"_boot_id"];

pub fn name(random: &mut Random) -> Vec<u8> {
    match random.below(40) {
        0 => pick(random, BAD).to_vec(),
        1 => vec![b'N'; between(random, 63, 65) as usize],
        2..=9 => pick(random, PASSED).to_vec(),
        _ => pick(random, GOOD).to_vec(),
    }
}

pub fn value(random: &mut Random) -> Vec<u8> {
    let length = match random.below(60) {
        0 => between(random, 4_088, 4_098),
        _ => between(random, 0, 20),
    };
    let bytes = random.bytes(length as usize);
    match random.below(3) {
        0 => bytes,
        _ => bytes
            .iter()
            .map(|it| b"abc =\t10"[*it as usize % 8])
            .collect(),
    }
}

/// In either form; as a line without the newlines of its value.
pub fn either(random: &mut Random, name: &[u8], value: &[u8]) -> Vec<u8> {
    let breaks = value.contains(&b'\n');
    if !name.is_empty() && (breaks || once_in(random, 2)) {
        return counted(name, value);
    }
    let value: Vec<u8> = value
        .iter()
        .copied()
        .filter(|&byte| byte != b'\n')
        .collect();
    line(name, &value)
}

fn number(random: &mut Random) -> String {
    let number = match random.below(3) {
        0 => random.below(100) as u64,
        _ => edge(random, 1 << 32),
    };
    match random.below(4) {
        0 => format!("{number:020}"),
        _ => number.to_string(),
    }
}

/// A stamp, by its place among the three.
pub fn stamp(random: &mut Random, place: usize) -> Vec<u8> {
    let value = match place {
        2 => format!("{:016x}{:016x}", random.word(), random.word()),
        _ => number(random),
    };
    either(random, STAMPS[place].0, value.as_bytes())
}

/// One that 23 refuses, most likely.
pub fn wrong_stamp(random: &mut Random) -> Vec<u8> {
    let place = random.below(3);
    let mut value = match (place, random.below(3)) {
        (2, _) => format!("{:032x}", random.word()).into_bytes(),
        (_, 0) => (u128::from(u64::MAX) + random.below(9) as u128)
            .to_string()
            .into(),
        _ => number(random).into_bytes(),
    };
    match random.below(4) {
        0 => value.push(pick(random, b"0a \n")),
        1 => value.truncate(random.below(value.len())),
        2 => {
            let at = random.below(value.len());
            value[at] = pick(random, b"/:`g@AFx-+ \0\xff");
        }
        _ => {}
    }
    either(random, STAMPS[place].0, &value)
}

/// A field that says a length at an edge.
pub fn lying(random: &mut Random) -> Vec<u8> {
    let (name, value) = (name(random), value(random));
    let right = value.len() as u64;
    let length = match random.below(3) {
        0 => right.wrapping_sub(between(random, 0, 300)),
        1 => right + between(random, 1, 60),
        _ => edge(random, right),
    };
    saying(&name, length, &value)
}
