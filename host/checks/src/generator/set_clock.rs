//! Files whose clock was set: wall times that fall and rise again in the order of the entries.
use super::worked::{appended, made_with, request};
use reading::layout::header;
use reading::request::{packed, Request};
use std::collections::BTreeSet;

const HOUR: u64 = 3_600_000_000;
const RIGHT: u64 = 1_700_000_000_000_000;
const HALF: u64 = 1 << 63;

/// Wall times in the order of their entries, and what is special about them.
pub type Series = (&'static str, Vec<u64>);

pub fn series() -> Vec<Series> {
    let fast = |times: &[u64]| times.iter().map(|it| RIGHT + HOUR + it).collect();
    let mut set_right: Vec<u64> = fast(&[10, 20, 30]);
    set_right.extend([40, 50, 50, 60].map(|it| RIGHT + it));
    set_right.extend(fast(&[5, 20, 31, 40]));
    vec![
        ("an hour fast, and set right", set_right),
        ("one back and one forward", vec![5, 4, 5, 4, 6, 5, 6]),
        ("falling all the way", (0..9).rev().collect()),
        ("the first above all", vec![90, 1, 2, 3, 4, 5, 6]),
        ("the last below all", vec![50, 60, 70, 80, 90, 100, 1]),
        ("a hill above both ends", vec![1, 9, 8, 8, 9, 2]),
        ("a valley", vec![50, 40, 1, 1, 2, 60]),
        (
            "over 2^63",
            vec![HALF + 1, HALF - 1, HALF, 1, u64::MAX, 0, HALF],
        ),
        ("under 2^63", vec![HALF - 1, HALF, HALF - 2, HALF + 1]),
        (
            "from end to end",
            vec![0, u64::MAX - 1, 0, u64::MAX, 1, u64::MAX],
        ),
        ("the greatest first", vec![u64::MAX, 0, 1, u64::MAX]),
        // The header's chain has arrays of 4, 8, 16 and 32 items.
        (
            "set again and again",
            (0..45).map(|n| RIGHT + 37 * n % 50).collect(),
        ),
    ]
}

/// Where to search: each time, one below and one above it, and the ends.
pub fn around(times: &[u64]) -> BTreeSet<u64> {
    let near = |&it: &u64| [it.saturating_sub(1), it, it.saturating_add(1)];
    let ends = [0, 1, HALF - 1, HALF, u64::MAX];
    times.iter().flat_map(near).chain(ends).collect()
}

/// "the first entry in sequence order at or after t": its place.
pub fn first_from(times: &[u64], t: u64) -> Option<usize> {
    times.iter().position(|&it| it >= t)
}

/// What a file is to be beside its wall times.
#[derive(Clone, Copy)]
pub struct Kind {
    pub keyed: u64,
    pub header_size: u64,
    pub seqnum_id: u8,
    pub boot: u8,
    /// The first sequence number; the next one is two above, and monotonic times are the same.
    pub first: u64,
}

/// One of one boot.
pub const PLAIN: Kind = Kind {
    keyed: 0,
    header_size: 256,
    seqnum_id: 4,
    boot: 5,
    first: 1,
};

/// The fields of the n-th entry.
pub fn fields(n: u64) -> Vec<u8> {
    packed(&[b"STATE=wet", format!("LOT={}", n % 3).as_bytes()])
}

impl Kind {
    /// A file without entries.
    pub fn empty(&self) -> Vec<u8> {
        let mut image = made_with(self.header_size, 16_384, self.keyed);
        image[header::SEQNUM_ID as usize..][..16].fill(self.seqnum_id);
        image
    }

    /// The n-th entry, from 0 on.
    pub fn request<'a>(&self, fields: &'a [u8], n: u64, realtime: u64) -> Request<'a> {
        let number = self.first + 2 * n;
        Request {
            boot_id: [self.boot; 16],
            ..request(fields, number, realtime, number)
        }
    }

    /// A file with an entry at each wall time.
    pub fn file(&self, times: &[u64]) -> Vec<u8> {
        let mut image = self.empty();
        for (&time, n) in times.iter().zip(0..) {
            appended(&mut image, &self.request(&fields(n), n, time));
        }
        image
    }
}
