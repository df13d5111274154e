//! A redo list: the stores of a batch, kept beside the journal while they are carried out. Whatever of
//! them reached the disk before a power cut, in any order, all of them once more make the file that was
//! meant (proved: `RedoBatch`). The page for those who write a host has its bytes and rules.
use crate::ids::{self, Id};
use crate::image::N_ENTRIES;
use wrapper::{carry_out, hash_siphash24, plan, Planned, Refusal, Request};

const MAGIC: &[u8; 8] = b"JRNLREDO";
/// Magic, file id, length of the journal, number of stores; then the checksum of all other bytes.
const CHECKED: usize = 40;
const HEAD: usize = 48;
/// A journal has a header.
const SHORTEST_IMAGE: u64 = 256;

/// The list of an image, as it stands in its file.
pub fn written(image: &[u8], stores: &[u8]) -> Vec<u8> {
    let mut list = MAGIC.to_vec();
    list.extend(file_id(image));
    list.extend((image.len() as u64).to_le_bytes());
    list.extend((stores.len() as u64 / 16).to_le_bytes());
    let checksum = checksum(&list, stores);
    list.extend(checksum.to_le_bytes());
    list.extend(stores);
    list
}

/// What stands beside an image.
pub enum List {
    /// Cut short, or its checksum is wrong: none of its stores was carried out.
    Broken,
    /// The file has more entries than it leaves: later appends came after it.
    Stale,
    /// Not of this file as it stands, in words.
    Foreign(String),
    /// Its stores, and the image that they make.
    Whole { stores: Vec<u8>, finished: Vec<u8> },
}

/// What a list is for an image.
pub fn judged(list: &[u8], image: &[u8]) -> List {
    let Some((id, length, stores)) = parts(list) else {
        return List::Broken;
    };
    if image.len() as u64 != length {
        let own = image.len();
        return List::Foreign(format!(
            "is the redo list of a file of {length} bytes, and this one has {own}"
        ));
    }
    if id != file_id(image) {
        let [id, own] = [id, file_id(image)].map(|id| ids::shown(&id));
        return List::Foreign(format!(
            "is the redo list of the file with id {id}, and this one has id {own}"
        ));
    }
    let commits = stores.chunks_exact(16).rev();
    let mut commits = commits.filter(|store| word(store, 0) == N_ENTRIES);
    if commits
        .next()
        .is_some_and(|last| word(last, 8) < word(image, N_ENTRIES as usize))
    {
        return List::Stale;
    }
    let mut finished = image.to_vec();
    let fits = carry_out(&mut finished, stores, stores.len() as u64 / 16);
    match fits.map_or_else(Some, |()| takes_none(&finished)) {
        None => List::Whole {
            stores: stores.to_vec(),
            finished,
        },
        Some(refusal) => List::Foreign(format!(
            "is a redo list of this file, but not of the state that it is in: with it the file would be \
             refused ({})",
            refusal.rule()
        )),
    }
}

/// File id, length of the journal and stores of a list that is whole.
fn parts(list: &[u8]) -> Option<(Id, u64, &[u8])> {
    let (head, stores) = list.split_at_checked(HEAD)?;
    let whole = head.starts_with(MAGIC)
        && word(head, 24) >= SHORTEST_IMAGE
        && word(head, 32).checked_mul(16) == Some(stores.len() as u64)
        && word(head, CHECKED) == checksum(&head[..CHECKED], stores);
    whole.then(|| {
        (
            head[8..24].try_into().expect("16 bytes"),
            word(head, 24),
            stores,
        )
    })
}

/// SipHash-2-4 under the file id, which stands at 8.
fn checksum(head: &[u8], stores: &[u8]) -> u64 {
    let key = head[8..24].try_into().expect("16 bytes");
    hash_siphash24(key, &[head, stores].concat())
}

/// What keeps an image from every append, if something does: 1 to 14 or 25. One with a batch has
/// nothing of it (proved: `Demand2Batch`).
fn takes_none(image: &[u8]) -> Option<Refusal> {
    let request = Request {
        machine: &ids::machine_of(image),
        boot: &[1; 16],
        seqnum: 1,
        realtime: 1,
        monotonic: 1,
        fields: &[],
    };
    match plan(image, &request, &mut []) {
        Planned::Refused(refusal) if refusal.number() < 15 || refusal.number() == 25 => {
            Some(refusal)
        }
        _ => None,
    }
}

/// From the header: 16 bytes at 24.
fn file_id(image: &[u8]) -> Id {
    image[24..40].try_into().expect("16 bytes")
}

fn word(bytes: &[u8], at: usize) -> u64 {
    u64::from_le_bytes(bytes[at..at + 8].try_into().expect("8 bytes"))
}
