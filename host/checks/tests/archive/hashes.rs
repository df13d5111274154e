//! The archive's two hashes against the plain Rust ones, and SipHash also against the standard
//! library's.
use checks::random::Random;
use reading::lookup3::hashlittle2;
use reading::siphash::siphash24;
use std::hash::Hasher;
use std::hint::black_box;
use wrapper::raw::{hash_lookup3, hash_siphash24};

/// Hashes `buffer[start..start + length]` with the archive, and compares the results with the
/// others, and the whole buffer and the key with copies from before.
fn check(key: &[u8; 16], buffer: &mut [u8], start: usize, length: usize) {
    let mut key = *key;
    let (key_before, before) = (key, buffer.to_vec());

    let bytes = &buffer[start..start + length];
    let lookup3 = hash_lookup3(bytes);
    let siphash = hash_siphash24(&key, bytes);

    // The compiler may take what it lent as unchanged; this makes it look at the bytes again.
    black_box(&mut key);
    black_box(&mut *buffer);
    assert!(key == key_before, "key changed at {start}, {length}");
    assert!(*buffer == before[..], "bytes changed at {start}, {length}");

    // The expected values come from the copy, which the archive has never seen.
    let bytes = &before[start..start + length];
    assert_eq!(lookup3, hashlittle2(bytes), "lookup3 at {start}, {length}");
    assert_eq!(
        siphash,
        siphash24(&key, bytes),
        "siphash24 at {start}, {length}"
    );
    assert_eq!(
        siphash,
        standard_siphash24(&key, bytes),
        "standard siphash24 at {start}, {length}"
    );
}

/// The standard library's `SipHasher` is SipHash-2-4; it is deprecated, but only in favour of a
/// hasher whose algorithm is left open.
#[allow(deprecated)]
fn standard_siphash24(key: &[u8; 16], bytes: &[u8]) -> u64 {
    let key = u128::from_le_bytes(*key);
    let mut hasher = std::hash::SipHasher::new_with_keys(key as u64, (key >> 64) as u64);
    hasher.write(bytes);
    hasher.finish()
}

#[test]
fn published_values() {
    let key: [u8; 16] = std::array::from_fn(|index| index as u8);
    let input: [u8; 63] = std::array::from_fn(|index| index as u8);
    assert_eq!(hash_lookup3(b""), 0xdeadbeef_deadbeef);
    assert_eq!(
        hash_lookup3(b"Four score and seven years ago"),
        0x17770551_ce7226e6
    );
    assert_eq!(hash_siphash24(&key, b""), 0x726fdb47dd0e0e31);
    assert_eq!(hash_siphash24(&key, &input[..15]), 0xa129ca6149be45e5);
    assert_eq!(hash_siphash24(&key, &input), 0x958a324ceb064572);
}

/// New bytes for every length, in a buffer of just that length.
#[test]
fn every_length_below_5000() {
    let mut random = Random::new(1);
    for length in 0..5_000 {
        let mut buffer = random.bytes(length);
        check(&random.array(), &mut buffer, 0, length);
    }
}

/// The bytes around the slice are random too, so a hash that takes one of them in would differ.
#[test]
fn every_alignment() {
    let mut random = Random::new(2);
    let longer = [
        95, 96, 97, 127, 128, 129, 143, 144, 145, 255, 256, 257, 1_000, 4_095, 4_096, 4_097,
    ];
    for length in (0..=64).chain(longer) {
        for start in 0..=8 {
            let mut buffer = random.bytes(start + length + 16);
            check(&random.array(), &mut buffer, start, length);
        }
    }
}

#[test]
fn random_inputs() {
    let mut random = Random::new(3);
    for _ in 0..5_000 {
        // As many short inputs as long ones: the tails are where the cases are.
        let bound = [32, 256, 2_048, 16_384][random.below(4)];
        let (start, length) = (random.below(64), random.below(bound));
        let after = random.below(64);
        let mut buffer = random.bytes(start + length + after);
        check(&random.array(), &mut buffer, start, length);
    }
}

/// Bytes that are all the same, where a wrong sign or a lost carry shows.
#[test]
fn uniform_inputs() {
    for byte in [0x00, 0x7f, 0x80, 0xff] {
        for length in 0..=200 {
            check(&[byte; 16], &mut vec![byte; length], 0, length);
        }
    }
}
