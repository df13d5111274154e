//! `journal_carry_out`.
use crate::lending::lent;
use checks::random::Random;
use reading::carry;
use reading::layout::MOST_BYTES;
use std::hint::black_box;
use wrapper::raw::carry_out;

/// How often carrying out was tried, by its answer.
#[derive(Default)]
struct Carried {
    done: u64,
    refused: u64,
}

impl Carried {
    /// Compares carrying out with the reading, byte by byte. The list stays, and at 21 the image.
    fn out(&mut self, image: &[u8], list: &[u8], k: u64) -> u64 {
        let tried = self.done + self.refused;
        let mut stores = list.to_vec();
        let (answer, is) = lent(image, tried, |image| carry_out(image, &stores, k));
        black_box(&mut stores);
        assert!(stores == list, "the list changed");
        let mut should = image.to_vec();
        let number = carry::carry_out(&mut should, list, k);
        assert_eq!(answer, number, "{} bytes, k {k}", image.len());
        assert!(is == should, "{} bytes, k {k}", image.len());
        match answer {
            0 => self.done += 1,
            _ => {
                assert!(answer == 21 && is == image);
                self.refused += 1;
            }
        }
        answer
    }

    fn print(&self, what: &str) {
        println!("{what}: {} done, {} refused", self.done, self.refused);
    }
}

/// The list of some stores.
fn list(stores: &[(u64, u64)]) -> Vec<u8> {
    let words = stores.iter().flat_map(|store| [store.0, store.1]);
    words.flat_map(u64::to_le_bytes).collect()
}

/// Up to 12 stores that fit an image of so many bytes, if any does.
fn fitting(random: &mut Random, length: usize) -> Vec<(u64, u64)> {
    let slots = length / 8;
    let count = if slots == 0 { 0 } else { random.below(13) };
    (0..count)
        .map(|_| (8 * random.below(slots) as u64, random.word()))
        .collect()
}

/// Offsets that do not fit an image of so many bytes: between two words, past the end, near 2^64.
fn misfits(random: &mut Random, length: usize) -> Vec<u64> {
    let length = length as u64;
    let inside = 8 * random.below(1 + length as usize / 8) as u64;
    let odd = inside + 1 + random.below(7) as u64;
    let past = length.next_multiple_of(8);
    let mut offsets = vec![odd, past, past + 8, random.word() | 1, 1 << 63];
    offsets.extend([u64::MAX, u64::MAX - 6, u64::MAX - 7, u64::MAX - 15]);
    // The last word that begins in the image and is not whole.
    if length % 8 != 0 {
        offsets.push(length / 8 * 8);
    }
    offsets
}

#[test]
fn every_count_of_a_list() {
    let mut carried = Carried::default();
    for seed in 0..1_500 {
        let random = &mut Random::new(seed);
        let length = random.below(600);
        let image = random.bytes(length);
        let mut stores = list(&fitting(random, length));
        let whole = stores.len() as u64 / 16;
        // "a rest below 16 bytes is no store"
        let rest = random.below(16);
        stores.extend(random.bytes(rest));
        for k in 0..=whole {
            assert_eq!(carried.out(&image, &stores, k), 0);
        }
        let far = [whole + 1, whole + 2, 1 << 32, 1 << 60, 1 << 63];
        for k in far.into_iter().chain([u64::MAX / 16, u64::MAX]) {
            assert_eq!(carried.out(&image, &stores, k), 21);
        }
    }
    carried.print("every count of a list");
}

/// One store that does not fit, anywhere in a list of good ones: those before it can be carried out.
#[test]
fn one_store_at_fault() {
    let mut carried = Carried::default();
    for seed in 0..700 {
        let random = &mut Random::new(seed + 5_000);
        let length = random.below(300);
        let image = random.bytes(length);
        let good = fitting(random, length);
        for offset in misfits(random, length) {
            let place = random.below(good.len() + 1);
            let mut stores = good.clone();
            stores.insert(place, (offset, random.word()));
            for k in 0..=stores.len() {
                let number = if k <= place { 0 } else { 21 };
                assert_eq!(carried.out(&image, &list(&stores), k as u64), number);
            }
        }
    }
    carried.print("one store at fault");
}

/// Lists of any bytes, and lists with several faults.
#[test]
fn any_lists() {
    let mut carried = Carried::default();
    for seed in 0..4_000 {
        let random = &mut Random::new(seed + 9_000);
        let length = random.below(200);
        let image = random.bytes(length);
        let length_of_list = random.below(200);
        let any = random.bytes(length_of_list);
        let mut stores = fitting(random, length);
        let mut wrong = misfits(random, length);
        for store in &mut stores {
            if random.below(6) == 0 {
                let which = random.below(wrong.len());
                store.0 = wrong.swap_remove(which);
            }
            if wrong.is_empty() {
                break;
            }
        }
        for stores in [any, list(&stores)] {
            for k in 0..=stores.len() as u64 / 16 + 1 {
                carried.out(&image, &stores, k);
            }
        }
    }
    carried.print("any lists");
    assert!(carried.done > 5_000 && carried.refused > 5_000);
}

/// The first and the last word of the longest images, and one past them.
#[test]
fn long_images() {
    let mut carried = Carried::default();
    for length in [MOST_BYTES, MOST_BYTES + 8, MOST_BYTES - 1] {
        let image = vec![7; length as usize];
        let last = length / 8 * 8 - 8;
        let stores = list(&[(0, 1), (last, 2), (last + 8, 3)]);
        assert_eq!(carried.out(&image, &stores, 2), 0);
        assert_eq!(carried.out(&image, &stores, 3), 21);
    }
}
