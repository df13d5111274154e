//! Stamps for the entries of two files: from few boots and from narrow ranges that both share, so
//! that the entries of the two are often equal in some stamp, and the ranges often hold 2^63.
use super::dice::{between, once_in, pick};
use crate::random::Random;

/// What an entry is stamped with.
#[derive(Clone, Copy, Debug, PartialEq, Eq)]
pub struct Stamped {
    pub seqnum: u64,
    pub realtime: u64,
    pub monotonic: u64,
    pub boot_id: [u8; 16],
}

/// Where the numbers of both files begin, and their boots.
#[derive(Clone)]
pub struct Ranges {
    seqnum: u64,
    realtime: u64,
    monotonic: u64,
    boots: [[u8; 16]; 2],
}

impl Ranges {
    pub fn new(random: &mut Random) -> Ranges {
        let starts = [1, (1 << 63) - 3, u64::MAX - 60];
        let one = random.array();
        // Two boots may differ in any one byte.
        let mut other = one;
        other[random.below(16)] ^= 1 << random.below(8);
        Ranges {
            seqnum: pick(random, &starts),
            realtime: pick(
                random,
                &[starts[0], starts[1], starts[2], 1_700_000_000_000_000],
            ),
            monotonic: pick(random, &starts),
            boots: [one, other],
        }
    }

    pub fn clock(&self, random: &mut Random) -> Clock {
        let mut near = |start: u64| start + between(random, 0, 2);
        Clock {
            next: Stamped {
                seqnum: near(self.seqnum),
                realtime: near(self.realtime),
                monotonic: near(self.monotonic),
                boot_id: self.boots[near(0) as usize % 2],
            },
            ranges: self.clone(),
        }
    }
}

/// The stamps of one file, entry by entry, as refusals 9 and 17 want them: the wall clock is set now
/// and then, back too.
pub struct Clock {
    next: Stamped,
    ranges: Ranges,
}

impl Clock {
    pub fn tick(&mut self, random: &mut Random) -> Stamped {
        let now = self.next;
        self.next.seqnum += between(random, 1, 2);
        self.next.realtime = match once_in(random, 4) {
            true => self.ranges.realtime + between(random, 0, 4),
            false => now.realtime + between(random, 0, 1),
        };
        if once_in(random, 3) {
            let [one, other] = self.ranges.boots;
            self.next.boot_id = if now.boot_id == one { other } else { one };
            // Each boot has a monotonic time of its own.
            self.next.monotonic = self.ranges.monotonic + between(random, 0, 4);
        } else {
            self.next.monotonic += between(random, 0, 1);
        }
        now
    }
}
