//! A file of the archive alone.
use reading::request::packed;
use wrapper::{plan, Planned, Request};

pub const MACHINE: [u8; 16] = [2; 16];
/// More than any of the appends here needs.
const MOST_STORES: usize = 4_000;

/// The boot, the sequence number and the two times of an entry.
#[derive(Clone, Copy)]
pub struct At {
    pub boot: [u8; 16],
    pub seqnum: u64,
    pub realtime: u64,
    pub monotonic: u64,
}

/// The n-th entry of one boot, in a row.
pub fn nth(n: u64) -> At {
    At {
        boot: [5; 16],
        seqnum: n,
        realtime: 1_700_000_000_000_000 + 1_000 * n,
        monotonic: 1_000 * n,
    }
}

/// A new file with a header of 256 bytes.
pub fn new(length: usize, cells: (u64, u64), keyed: u64) -> Vec<u8> {
    new_with(256, length, cells, keyed)
}

/// A new file with a header of 256 or 272 bytes.
pub fn new_with(header_size: u64, length: usize, cells: (u64, u64), keyed: u64) -> Vec<u8> {
    let ids = [[1; 16], MACHINE, [3; 16], [4; 16]].concat();
    let ids = ids[..].try_into().expect("64 bytes");
    let mut image = vec![0; length];
    let made = wrapper::new(&mut image, ids, cells.0, cells.1, keyed == 1, header_size);
    assert_eq!(made, Ok(()));
    image
}

/// The stores of an append to a file of `new`.
pub fn planned(image: &[u8], at: At, payloads: &[Vec<u8>]) -> Vec<u8> {
    planned_of(MACHINE, image, at, payloads)
}

/// The same for a file of any machine.
pub fn planned_of(machine: [u8; 16], image: &[u8], at: At, payloads: &[Vec<u8>]) -> Vec<u8> {
    let payloads: Vec<&[u8]> = payloads.iter().map(|it| &it[..]).collect();
    let request = Request {
        machine: &machine,
        boot: &at.boot,
        seqnum: at.seqnum,
        realtime: at.realtime,
        monotonic: at.monotonic,
        fields: &packed(&payloads),
    };
    let mut list = vec![0; MOST_STORES * 16];
    let Planned::Stores { count } = plan(image, &request, &mut list) else {
        panic!("the append is taken");
    };
    list.truncate(count as usize * 16);
    list
}

/// An append to a file of `new`, worked out and carried out.
pub fn append(image: &mut [u8], at: At, payloads: &[Vec<u8>]) {
    let list = planned(image, at, payloads);
    carry_out(image, &list);
}

/// Carries out all stores of a list.
pub fn carry_out(image: &mut [u8], list: &[u8]) {
    let stores = list.len() as u64 / 16;
    assert_eq!(wrapper::carry_out(image, list, stores), Ok(()));
}
