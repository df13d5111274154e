//! Payloads of every kind that an append takes.
use crate::check::check;
use crate::written::{append, new, nth};

fn payload(name: &str, value: &[u8]) -> Vec<u8> {
    [name.as_bytes(), b"=", value].concat()
}

/// Payloads of one name.
fn each<T: AsRef<[u8]>>(name: &str, values: &[T]) -> Vec<Vec<u8>> {
    let values = values.iter();
    values.map(|it| payload(name, it.as_ref())).collect()
}

/// Each of these lists is the fields of one entry.
pub fn kinds() -> Vec<Vec<Vec<u8>>> {
    let mut kinds = Vec::new();
    // Each byte alone and in text, and all of them in one value.
    let all: Vec<u8> = (0..=255).collect();
    for bytes in all.chunks(64) {
        let alone: Vec<[u8; 1]> = bytes.iter().map(|&byte| [byte]).collect();
        let in_text: Vec<[u8; 3]> = bytes.iter().map(|&byte| [b'a', byte, b'z']).collect();
        kinds.extend([each("BYTE", &alone), each("TEXT", &in_text)]);
    }
    kinds.push(vec![payload("ALL", &all)]);
    // Ends of lines, what looks like a field or like the end of an entry, and other scripts.
    let lines = ["", "\n", "\n\n", "a\nB=1\n\n__CURSOR=s", "\r\n", "\t", "\0"];
    let signs = ["=", "==", "a=b", " ", "\u{7f}", "\u{85}"];
    let scripts = ["sämling", "発芽", "\u{feff}", "\u{e000}", "\u{10ffff}"];
    kinds.push(each("MESSAGE", &[&lines[..], &signs, &scripts].concat()));
    // Empty values, several values of one name in one entry, and payloads that are repeated.
    let repeated = [each("EMPTY", &[""; 2]), each("A", &["1", "2", "1"])];
    kinds.push(repeated.concat());
    // Names of one to 64 letters, and such as journald keeps for itself.
    let long = (1..=64).map(|n| payload(&"N".repeat(n), b"1"));
    kinds.push(long.collect());
    let own = ["_PID", "__X", "A0", "_0", "_", "__", "_BOOT_ID", "__CURSOR"];
    kinds.push(own.iter().map(|name| payload(name, b"1")).collect());
    // Objects that end anywhere between two multiples of 8, and payloads of 4,096 bytes.
    let lengths = (2..=60).map(|n| payload("LENGTH", &vec![b'x'; n]));
    kinds.push(lengths.collect());
    kinds.push(each("LONG", &[[b'x'; 4_091], [b'\n'; 4_091]]));
    kinds
}

#[test]
fn of_every_kind() {
    for keyed in [0, 1] {
        let mut image = new(131_072, (7, 3), keyed);
        let kinds = kinds();
        // Once new, once old.
        for (n, payloads) in (1..).zip(kinds.iter().chain(&kinds)) {
            append(&mut image, nth(n), payloads);
            if n % 5 == 0 || n as usize == 2 * kinds.len() {
                check(&image, n as usize);
            }
        }
    }
}
