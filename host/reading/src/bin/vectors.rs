//! Prints hash vectors from the plain Rust hashes alone, never from the archive.
//!
//! A proved program prints the same lines from the proved hashes, and the two texts must be equal,
//! so every space here counts.
use reading::lookup3::hashlittle2;
use reading::siphash::siphash24;

const PAYLOADS: [&str; 5] = [
    "MESSAGE=lot 12 due",
    "PRIORITY=2",
    "_HOSTNAME=store-controller-7",
    "GERMINATION=0",
    "LOT=1123581321345589",
];

fn main() {
    for text in ["", "Four score and seven years ago"] {
        print_lookup3(text);
    }
    for text in PAYLOADS {
        print_lookup3(text);
    }

    // The SipHash reference vectors: key 00 to 0f, input the first bytes of 00 to 3e.
    let key: [u8; 16] = std::array::from_fn(|index| index as u8);
    let input: [u8; 63] = std::array::from_fn(|index| index as u8);
    for length in 0..=input.len() {
        let hash = siphash24(&key, &input[..length]);
        println!("siphash24 {length} = {hash:016x}");
    }
    for text in PAYLOADS {
        let hash = siphash24(&key, text.as_bytes());
        println!("siphash24 \"{text}\" = {hash:016x}");
    }
}

fn print_lookup3(text: &str) {
    let hash = hashlittle2(text.as_bytes());
    println!("lookup3 \"{text}\" = {hash:016x}");
}
