//! Wall times of entries in their order: a clock that is set back and forward again now and then.
//! Realtime may fall between any two entries, so nothing here keeps it from doing so.
use super::dice::{between, once_in, pick};
use crate::random::Random;

/// A clock of an hour too much, set right.
const HOUR: u64 = 3_600_000_000;

/// The wall clock of one file.
pub struct WallClock {
    now: u64,
    /// Whether it is ever set; else it only goes on.
    is_set: bool,
}

impl WallClock {
    pub fn new(random: &mut Random, start: u64) -> WallClock {
        WallClock {
            now: start,
            is_set: !once_in(random, 4),
        }
    }

    /// The time of the next entry.
    pub fn tick(&mut self, random: &mut Random) -> u64 {
        let now = self.now;
        self.now = match self.is_set && once_in(random, 3) {
            true => set(random, now),
            false => now.saturating_add(between(random, 0, 3)),
        };
        now
    }
}

/// A clock that showed a time is set: a little or an hour, back or forward, over 2^63, or to an end.
pub fn set(random: &mut Random, realtime: u64) -> u64 {
    let step = pick(random, &[1, 1, 2, 3, 9, HOUR]);
    match random.below(8) {
        0..=3 => realtime.saturating_sub(step),
        4 | 5 => realtime.saturating_add(step),
        6 => realtime ^ 1 << 63,
        _ => pick(random, &[0, 1, u64::MAX - 1, u64::MAX]),
    }
}
