//! Sequence numbers, times and boots of the committed entries.
use super::dice::{between, once_in, pick};
use super::draft::Draft;
use super::wall_clock::WallClock;
use crate::random::Random;

/// Numbers the committed entries so that refusal 9 passes, often over 2^63. Wall times may fall.
pub fn number(random: &mut Random, draft: &mut Draft) {
    let far = random.word() >> 8;
    let mut seqnum = pick(random, &[1, 2, (1 << 63) - 2, 1 << 63, u64::MAX - 100, far]);
    let far = random.word() >> 8;
    let starts = [0, 1_700_000_000_000_000, (1 << 63) - 2, u64::MAX - 100, far];
    let start = pick(random, &starts);
    let mut clock = WallClock::new(random, start);
    let mut boot_id = random.array();
    let mut monotonic = random.word() >> 4;
    for entry in draft.committed.clone() {
        let (realtime, it) = (clock.tick(random), draft.entry_mut(entry));
        (it.seqnum, it.realtime, it.monotonic, it.boot_id) = (seqnum, realtime, monotonic, boot_id);
        seqnum += between(random, 1, 4);
        if once_in(random, 3) {
            boot_id = random.array();
            monotonic = random.word() >> 4;
        } else {
            monotonic += between(random, 0, 3);
        }
    }
    if let Some(&last) = draft.committed.last() {
        if once_in(random, 2) {
            draft.boot_id = draft.entry(last).boot_id;
        }
    }
}
