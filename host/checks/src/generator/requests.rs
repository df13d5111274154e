//! Requests for appends.
use super::dice::{between, edge, once_in, pick, shuffle};
use super::wall_clock::set;
use crate::random::Random;
use reading::image::{id, name_of};
use reading::layout::{entry, header, kind};
use reading::lookup::open;
use reading::refusal::clause::*;
use reading::request::{packed, sixteen, Request};

/// A request with its own fields.
#[derive(Clone, Debug)]
pub struct Asked {
    pub machine_id: [u8; 16],
    pub boot_id: [u8; 16],
    pub seqnum: u64,
    pub realtime: u64,
    pub monotonic: u64,
    pub fields: Vec<u8>,
}

impl Asked {
    pub fn request(&self) -> Request<'_> {
        Request {
            machine_id: self.machine_id,
            boot_id: self.boot_id,
            seqnum: self.seqnum,
            realtime: self.realtime,
            monotonic: self.monotonic,
            fields: &self.fields,
        }
    }
}

/// A request that 15 to 17 let pass, if the image opens and its numbers leave room. Its wall time may
/// lie before the last entry's.
pub fn fitting(random: &mut Random, image: &[u8]) -> Asked {
    let mut asked = Asked {
        machine_id: random.array(),
        boot_id: random.array(),
        seqnum: between(random, 1, 9),
        realtime: between(random, 0, 9),
        monotonic: random.word(),
        fields: packed(&[b"MESSAGE=1"]),
    };
    let Ok(journal) = open(image) else {
        return asked;
    };
    asked.machine_id = id(image, header::MACHINE_ID);
    asked.fields = fields(random, &payloads(&journal.image));
    if let Some(&last) = journal.committed.last() {
        let word = |at: u64| journal.image.word(last + at);
        asked.seqnum = word(entry::SEQNUM).saturating_add(pick(random, &[1, 1, 2, 1 << 62]));
        let realtime = word(entry::REALTIME);
        asked.realtime = match once_in(random, 3) {
            true => set(random, realtime),
            false => realtime.saturating_add(pick(random, &[0, 0, 1, 1 << 62])),
        };
        if once_in(random, 2) {
            asked.boot_id = id(image, last + entry::BOOT_ID);
            asked.monotonic =
                word(entry::MONOTONIC).saturating_add(pick(random, &[0, 0, 1, 1 << 62]));
        }
    }
    asked
}

/// The payloads in an image that a request may carry.
fn payloads(image: &reading::image::Image) -> Vec<Vec<u8>> {
    let mut payloads = Vec::new();
    for object in image.of_kind(kind::DATA) {
        let payload = image.payload(&object);
        let mut found = Vec::new();
        sixteen(&packed(&[payload]), &mut found);
        if found.is_empty() {
            payloads.push(payload.to_vec());
        }
    }
    payloads
}

/// Old payloads, new ones of old and new names, repeats.
fn fields(random: &mut Random, old: &[Vec<u8>]) -> Vec<u8> {
    let mut chosen: Vec<Vec<u8>> = Vec::new();
    for _ in 0..pick(random, &[1, 1, 2, 3, 5, 9]) {
        let new = format!("N{}", random.below(3)).into_bytes();
        let mut name = pick(
            random,
            &[
                b"MESSAGE".to_vec(),
                b"PRIORITY".to_vec(),
                b"_PID".to_vec(),
                new,
            ],
        );
        if !old.is_empty() && once_in(random, 3) {
            name = name_of(&pick(random, old))
                .expect("refusal 11 passed")
                .to_vec();
        }
        let length = random.below(12);
        let value = random.bytes(length);
        chosen.push(match random.below(3) {
            0 if !old.is_empty() => pick(random, old),
            1 if !chosen.is_empty() => pick(random, &chosen),
            _ => [name, b"=".to_vec(), value].concat(),
        });
    }
    if once_in(random, 8) {
        chosen.extend(old.iter().take(40).cloned());
        shuffle(random, &mut chosen);
    }
    packed(
        &chosen
            .iter()
            .map(|payload| &payload[..])
            .collect::<Vec<_>>(),
    )
}

/// A fitting request changed for a clause of 15 to 17; false where the image does not allow it.
pub fn change(clause: Clause, random: &mut Random, image: &[u8], asked: &mut Asked) -> bool {
    let last = match open(image) {
        Ok(journal) => journal.committed.last().map(|last| {
            let word = |at: u64| journal.image.word(last + at);
            let boot_id = id(image, last + entry::BOOT_ID);
            (word(entry::SEQNUM), word(entry::MONOTONIC), boot_id)
        }),
        Err(_) => None,
    };
    let add = |asked: &mut Asked, payload: &[u8]| {
        let payload = packed(&[payload]);
        asked.fields = if payload.len() % 2 == 0 {
            [payload, asked.fields.clone()].concat()
        } else {
            [asked.fields.clone(), payload].concat()
        };
    };
    match (clause, last) {
        (MACHINE_DIFFERS, _) => asked.machine_id[random.below(16)] ^= 1 << random.below(8),
        (BADLY_PACKED, _) => match random.below(3) {
            0 => asked.fields.truncate(asked.fields.len() - 1),
            1 => asked.fields.extend(&[0, 0, 0][..random.below(3) + 1]),
            _ => asked.fields[3] = pick(random, &[1, 128, 255]),
        },
        (NO_FIELDS, _) => asked.fields.clear(),
        (ABOVE_64_FIELDS, _) => {
            asked.fields = packed(&vec![&b"A=1"[..]; pick(random, &[65, 66, 100])])
        }
        (LONG_PAYLOAD, _) => {
            let length = pick(random, &[4_097, 5_000]);
            let payload = [b"A=".to_vec(), random.bytes(length - 2)].concat();
            add(asked, &payload);
        }
        (NO_SIGN_IN_FIELD, _) => add(asked, pick(random, &[&b""[..], b"A", b"MESSAGE"])),
        (EMPTY_NAME, _) => add(asked, pick(random, &[&b"="[..], b"=1", b"=A=1"])),
        (LONG_NAME, _) => add(
            asked,
            &[vec![b'A'; pick(random, &[65, 100])], b"=1".to_vec()].concat(),
        ),
        (NAME_BYTES, _) => {
            let byte = pick(
                random,
                &[b'a', b'z', b' ', b'/', b':', b'@', b'[', b'`', 0, 127, 255],
            );
            add(asked, &[b"A", &[byte][..], b"=1"].concat());
        }
        (NAME_DIGIT, _) => add(asked, pick(random, &[&b"0=1"[..], b"9A=1"])),
        (NEW_SEQNUM_ZERO, _) => asked.seqnum = 0,
        (NEW_SEQNUM, Some((seqnum, ..))) => {
            asked.seqnum = pick(random, &[seqnum, seqnum - 1, 1, seqnum ^ 1 << 63]);
            return asked.seqnum <= seqnum && asked.seqnum > 0;
        }
        (NEW_MONOTONIC, Some((_, monotonic, boot_id))) => {
            asked.boot_id = boot_id;
            asked.monotonic = pick(random, &[monotonic.wrapping_sub(1), 0]);
            return asked.monotonic < monotonic;
        }
        _ => return false,
    }
    true
}

/// Mutates a request anywhere.
pub fn mutate(random: &mut Random, asked: &mut Asked) {
    match random.below(8) {
        0 => asked.seqnum = edge(random, asked.seqnum),
        1 => asked.realtime = edge(random, asked.realtime),
        2 => asked.monotonic = edge(random, asked.monotonic),
        3 => asked.boot_id[random.below(16)] ^= 1,
        4 => asked.fields.truncate(random.below(asked.fields.len() + 1)),
        _ if asked.fields.is_empty() => {}
        _ => {
            let at = random.below(asked.fields.len());
            asked.fields[at] = pick(random, &[0, 1, b'=', b'A', b'a', 255]);
        }
    }
}
