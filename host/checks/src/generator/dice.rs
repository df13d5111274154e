//! Choices out of the pseudo-random words.
use crate::random::Random;

/// True once in `of` times.
pub fn once_in(random: &mut Random, of: usize) -> bool {
    random.below(of) == 0
}

/// A number from `low` to `high`, both included.
pub fn between(random: &mut Random, low: u64, high: u64) -> u64 {
    low + random.below((high - low + 1) as usize) as u64
}

/// One of some choices.
pub fn pick<T: Clone>(random: &mut Random, choices: &[T]) -> T {
    choices[random.below(choices.len())].clone()
}

/// The choices in another order.
pub fn shuffle<T>(random: &mut Random, choices: &mut [T]) {
    for i in (1..choices.len()).rev() {
        let j = random.below(i + 1);
        choices.swap(i, j);
    }
}

/// Some of the choices, in their order; each with one chance in two.
pub fn some_of<T: Clone>(random: &mut Random, choices: &[T]) -> Vec<T> {
    choices
        .iter()
        .filter(|_| random.below(2) == 0)
        .cloned()
        .collect()
}

/// A number that is likely to stand at an edge, near one that is already there.
pub fn edge(random: &mut Random, near: u64) -> u64 {
    match random.below(14) {
        0 => 0,
        1 => 1,
        2 => near.wrapping_add(1),
        3 => near.wrapping_sub(1),
        4 => near.wrapping_add(8),
        5 => near.wrapping_sub(8),
        6 => near.wrapping_add(16),
        7 => near.wrapping_sub(16),
        8 => u64::MAX - random.below(300) as u64,
        9 => 1 << 63,
        10 => (1 << 63) - 1,
        11 => near ^ 1 << random.below(64),
        12 => random.below(5000) as u64 * 8,
        _ => random.word(),
    }
}
