//! How the stream of two images is tried: from every pair of places, each step and its payloads; the
//! archive's answers compared with the reading's.
use checks::against::merged;
use checks::against::trial::{hex, lend};
use reading::image::le64;
use reading::merged::{facts, Facts, Stream};
use reading::merged_answers::{Merged, Opened};
use std::cmp::Ordering;

/// How much was compared.
#[derive(Default)]
pub struct Tried {
    pub pairs: u64,
    pub refused: u64,
    pub steps: u64,
    /// Steps by what they show: nothing, the only one left of the first and of the second file, one
    /// of two from the first and from the second, and two that meet.
    pub none: u64,
    pub left: [u64; 2],
    pub one_of_two: [u64; 2],
    pub met: u64,
    /// Of these the ones that are shown alone, since their equal in the other file was passed.
    pub equal_passed: u64,
    /// What one of two is chosen by: sequence number, monotonic time, wall time, xor_hash, the file.
    pub by: [u64; 5],
    /// The same, where signed numbers would choose the other one.
    pub over_2_63: [u64; 4],
    /// Payloads of each file, and items that are none.
    pub parts: [u64; 2],
    pub no_part: u64,
}

/// The places to ask for in a file of so many entries: all, the end, and some past it.
fn places(entries: usize) -> Vec<u64> {
    let past = [1 << 63, u64::MAX];
    (0..entries as u64 + 1).chain(past).collect()
}

impl Tried {
    /// Every step of two images, or what they answer where one is refused.
    pub fn pair(&mut self, first: &[u8], second: &[u8]) {
        let opened = Opened::new(first, second);
        let entries = match &opened.0 {
            Ok(stream) => [&stream.first, &stream.second].map(|it| it.committed.len()),
            Err(_) => [0, 0],
        };
        let number = self.pairs;
        lend(first, number, |first| {
            lend(second, number / 3, |second| {
                for at_first in places(entries[0]) {
                    for at_second in places(entries[1]) {
                        self.step([first, second], &opened, [at_first, at_second]);
                    }
                }
            })
        });
        self.pairs += 1;
        self.refused += opened.0.is_err() as u64;
    }

    /// One step, and the payloads of what it shows: the first, the last, and the place past it.
    pub fn step(&mut self, images: [&[u8]; 2], opened: &Opened, at: [u64; 2]) {
        let ([first, second], [at_first, at_second]) = (images, at);
        let is = merged::step(first, second, at);
        let right = opened.merged(at_first, at_second);
        if is != right {
            let [first, second] = images.map(hex);
            panic!("from {at:?}: {is:?}, and not {right:?}, of {first} and {second}");
        }
        self.steps += 1;
        let items = items(images, &is);
        let mut asked = vec![0, items.saturating_sub(1), items];
        asked.dedup();
        for place in asked {
            let is = merged::item(first, second, at, place);
            let right = opened.item(at_first, at_second, place);
            if is != right {
                let [first, second] = images.map(hex);
                panic!(
                    "item {place} from {at:?}: {is:?}, and not {right:?}, of {first} and {second}"
                );
            }
            match is.file {
                0 => self.no_part += 1,
                file => self.parts[file as usize - 1] += 1,
            }
        }
        if let Ok(stream) = &opened.0 {
            self.count(stream, at, &is);
        }
    }

    fn count(&mut self, stream: &Stream, at: [u64; 2], is: &Merged) {
        let next = [
            stream.first.entry(at[0]).map(|it| facts(&stream.first, it)),
            stream
                .second
                .entry(at[1])
                .map(|it| facts(&stream.second, it)),
        ];
        match next {
            [None, None] => self.none += 1,
            [Some(one), Some(other)] if one == other => self.met += 1,
            [Some(one), Some(other)] => {
                self.one_of_two[is.file as usize - 1] += 1;
                let [by, signed] = chosen_by(&one, &other);
                self.by[by] += 1;
                if signed == 1 {
                    self.over_2_63[by] += 1;
                }
            }
            _ => self.left[is.file as usize - 1] += 1,
        }
        if is.file != 0 {
            let (shown, other) = (stream.file(is.file), stream.file(3 - is.file));
            let passed = other
                .committed
                .iter()
                .take(at[2 - is.file as usize] as usize);
            let is = facts(shown, is.entry);
            self.equal_passed += passed.filter(|&&it| facts(other, it) == is).count() as u64;
        }
    }

    pub fn print(&self, what: &str) {
        println!(
            "{what}: {} pairs, {} refused; {} steps: none {}, the only one left {:?}, one of two {:?}, \
             met {}, with an equal one passed {}; chosen by seqnum, monotonic, realtime, xor_hash, file {:?}, of these over 2^63 \
             {:?}; payloads {:?}, none {}",
            self.pairs,
            self.refused,
            self.steps,
            self.none,
            self.left,
            self.one_of_two,
            self.met,
            self.equal_passed,
            self.by,
            self.over_2_63,
            self.parts,
            self.no_part
        );
    }

    /// All kinds of steps were there.
    pub fn covers(&self) {
        let steps = [self.none, self.met, self.equal_passed, self.no_part];
        let all = [
            &steps[..],
            &self.left,
            &self.one_of_two,
            &self.by,
            &self.over_2_63,
            &self.parts,
        ];
        assert!(all.concat().iter().all(|&n| n > 20));
    }
}

/// How many items the entry has that a step shows: its size less 64 in sixteens.
fn items(images: [&[u8]; 2], shown: &Merged) -> u64 {
    match (shown.refusal, shown.file) {
        (0, 1 | 2) => (le64(images[shown.file as usize - 1], shown.entry + 8) - 64) / 16,
        _ => 0,
    }
}

/// What one of two that are not equal is chosen by, as a place in `Tried::by`; and 1 where signed
/// numbers would choose the other.
fn chosen_by(one: &Facts, other: &Facts) -> [usize; 2] {
    let numbers = [
        (one.seqnum_id == other.seqnum_id, one.seqnum, other.seqnum),
        (one.boot_id == other.boot_id, one.monotonic, other.monotonic),
        (true, one.realtime, other.realtime),
        (true, one.xor_hash, other.xor_hash),
    ];
    for (by, (compared, one, other)) in numbers.into_iter().enumerate() {
        let order = one.cmp(&other);
        if compared && order != Ordering::Equal {
            let signed = (one as i64).cmp(&(other as i64));
            return [by, (signed != order) as usize];
        }
    }
    [4, 0]
}
