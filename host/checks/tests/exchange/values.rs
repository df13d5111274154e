//! The values of the stamps in a text: times and boot ids, right and wrong ones.
use super::asking::{Tried, SOME};
use super::stamps::{Form, FORMS};
use checks::generator::texts::{closed, line, STAMPS};
use reading::exchange::Stamps;
use reading::import::Entry;
use reading::refusal::clause::*;
use reading::request::packed;

/// The stamps as fields, one of them with another value.
fn stamps(form: Form, place: usize, value: &[u8]) -> Vec<Vec<u8>> {
    let mut stamps = STAMPS;
    stamps[place].1 = value;
    stamps.iter().map(|it| form(it.0, it.1)).collect()
}

/// The text of one field and the stamps, one of them with another value; by its place, 0 to 3.
fn texts(place: usize, value: &[u8]) -> Vec<Vec<u8>> {
    let mut texts = Vec::new();
    for form in FORMS {
        if value.contains(&b'\n') && form(b"", b"") == b"=\n" {
            continue;
        }
        for at in [0, 1, 3] {
            let mut fields = stamps(form, place, value);
            fields.insert(at, line(b"A", b"1"));
            texts.push(closed(&fields));
        }
    }
    texts
}

/// What is read with one time that is another.
fn with_time(place: usize, time: u64) -> Entry {
    let mut stamps = SOME;
    match place {
        0 => stamps.realtime = time,
        _ => stamps.monotonic = time,
    }
    Entry {
        stamps,
        fields: packed(&[b"A=1"]),
    }
}

/// "1 to 20 digits, at most 2^64 - 1, leading zeros taken"
#[test]
fn times() {
    let mut tried = Tried::default();
    let mut good: Vec<(String, u64)> = Vec::new();
    for time in [
        0,
        1,
        9,
        10,
        1_234_567_890,
        1 << 32,
        1 << 63,
        u64::MAX - 9,
        u64::MAX,
    ] {
        let digits = time.to_string();
        for width in digits.len()..=20 {
            good.push((format!("{time:0width$}"), time));
        }
    }
    good.extend((0..20).map(|n| (format!("{}", 10u64.pow(n)), 10u64.pow(n))));
    let mut bad: Vec<Vec<u8>> = [
        "",
        " ",
        "-1",
        "+1",
        " 1",
        "1 ",
        "1\t",
        "1.0",
        "0x1",
        "1e3",
        "1_0",
        "a",
        "1a",
        "٣",
        "\0",
        "1\0",
        "1\n",
        "\n",
        // 2^64 and the next ones, 20 digits far above, 21 and more.
        "18446744073709551616",
        "18446744073709551617",
        "18446744073709551619",
        "18446744073709551620",
        "18446744073709551625",
        "18446744073709551700",
        "18446744073709560000",
        "18446744080000000000",
        "19000000000000000000",
        "20000000000000000000",
        "28446744073709551615",
        "36893488147419103232",
        "36893488147419103233",
        "99999999999999999999",
        "000000000000000000000",
        "000000000000000000001",
        "018446744073709551615",
        "100000000000000000000",
        "184467440737095516150",
        "0000000000000000000000000000000000000000",
    ]
    .iter()
    .map(|it| it.as_bytes().to_vec())
    .collect();
    // A byte that is no digit, at each place.
    for at in 0..20 {
        for byte in *b"/:;aA_ \0\x7f\xff" {
            let mut digits = b"09876543210987654321".to_vec();
            digits[at] = byte;
            bad.push(digits);
        }
    }
    for place in [0, 1] {
        for (digits, time) in &good {
            for text in texts(place, digits.as_bytes()) {
                assert_eq!(tried.import(&text), Ok(with_time(place, *time)), "{digits}");
            }
        }
        for value in &bad {
            for text in texts(place, value) {
                assert_eq!(tried.number(&text), 23, "{value:?}");
            }
        }
    }
    tried.print("times");
}

/// "exactly 32 digits 0-9a-f": each byte at each place, and other lengths.
#[test]
fn boot_ids() {
    let mut tried = Tried::default();
    let right = STAMPS[2].1;
    for place in 0..32 {
        for byte in 0..=255u8 {
            let mut digits = right.to_vec();
            digits[place] = byte;
            let value = match byte {
                b'0'..=b'9' => Some(byte - b'0'),
                b'a'..=b'f' => Some(byte - b'a' + 10),
                _ => None,
            };
            let expected = value.map(|value| {
                let mut boot_id = SOME.boot_id;
                let (shift, other) = if place % 2 == 0 { (4, 0x0f) } else { (0, 0xf0) };
                boot_id[place / 2] = boot_id[place / 2] & other | value << shift;
                Entry {
                    stamps: Stamps { boot_id, ..SOME },
                    fields: packed(&[b"A=1"]),
                }
            });
            for text in texts(2, &digits).into_iter().step_by(2) {
                let read = tried.import(&text);
                match &expected {
                    Some(entry) => assert_eq!(read, Ok(entry.clone())),
                    None => assert!(read.is_err_and(|found| found[0].number == 23)),
                }
            }
        }
    }
    for length in (0..80).chain([256, 288]) {
        if length == 32 {
            continue;
        }
        let digits: Vec<u8> = right.iter().copied().cycle().take(length).collect();
        for text in texts(2, &digits) {
            assert_eq!(tried.import(&text), Err(vec![BOOT_ID_DIGITS]), "{length}");
        }
    }
    // As others write an id.
    for id in [
        "01234567-89ab-cdef-0011-223344556677",
        "0123456789ABCDEF0011223344556677",
        "0123456789abcdeF0011223344556677",
        "0x23456789abcdef0011223344556677",
        " 123456789abcdef0011223344556677",
    ] {
        for text in texts(2, id.as_bytes()) {
            assert_eq!(tried.import(&text), Err(vec![BOOT_ID_DIGITS]), "{id}");
        }
    }
    tried.print("boot ids");
}
