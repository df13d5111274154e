//! Lengths in a text that are not those of their values: none wraps, also in fields that are passed over.
use super::asking::Tried;
use super::forms::{entry, with_stamps};
use checks::generator::dice::shuffle;
use checks::generator::texts::{closed, counted, line, saying, STAMPS};
use checks::random::Random;

/// Lengths around these, and at the edges of 8, 16, 32 and 64 bits, beside which a sum with a place in the
/// text wraps.
fn lengths(around: &[u64]) -> Vec<u64> {
    let mut edges = vec![0, 1 << 8, 1 << 16, 1 << 31, 1 << 32, 1 << 63];
    edges.extend(around);
    let mut lengths = Vec::new();
    for edge in edges {
        for far in 0..24 {
            lengths.extend([edge.wrapping_add(far), edge.wrapping_sub(far)]);
        }
        lengths.extend(around.iter().map(|it| edge.wrapping_sub(*it)));
    }
    lengths.extend((0..700).map(|far| u64::MAX - far));
    lengths.extend((0..64).map(|bit| 1 << bit));
    lengths.sort();
    lengths.dedup();
    lengths
}

/// The fields of a text with one among them that says another length: before the others, in the midst, last.
fn texts(name: &[u8], length: u64, value: &[u8]) -> Vec<(Vec<u8>, usize)> {
    let others = [
        line(b"A", b"1"),
        line(STAMPS[0].0, STAMPS[0].1),
        counted(STAMPS[1].0, STAMPS[1].1),
        line(STAMPS[2].0, STAMPS[2].1),
        counted(b"B", b"x\ny"),
    ];
    let mut texts = Vec::new();
    for place in [0, 2, 5] {
        let mut fields = others.to_vec();
        fields.insert(place, saying(name, length, value));
        let text = closed(&fields);
        let start = fields[..place].concat().len() + name.len() + 9;
        let rest = text.len() - start;
        texts.push((text, rest));
    }
    texts
}

/// A field that is taken, one that is passed over, and one with a stamp's name.
#[test]
fn of_every_kind() {
    let mut tried = Tried::default();
    for (name, value) in [
        (&b"C"[..], &b"12345"[..]),
        (b"__CURSOR", b"s=1;i=2"),
        (b"__", b""),
        (b"D", b"\n\nE=1\n"),
        (b"_BOOT_ID", b"0123456789abcdef0011223344556677"),
        (b"__REALTIME_TIMESTAMP", b"7"),
    ] {
        let right = value.len() as u64;
        let rests = texts(name, 0, value);
        let around: Vec<u64> = rests.iter().map(|it| it.1 as u64).collect();
        for length in lengths(&[&around[..], &[right]].concat()) {
            for (text, rest) in texts(name, length, value) {
                let number = tried.number(&text);
                // Twice, where it is a stamp.
                let stamp = STAMPS.iter().any(|it| it.0 == name);
                match length {
                    _ if length == right && !stamp => assert_eq!(number, 0),
                    _ if length > rest as u64 || stamp => assert_eq!(number, 23, "{length}"),
                    _ => {}
                }
            }
        }
    }
    tried.print("lengths of every kind");
    assert!(tried.read[0] > 5 && tried.read[23] > 10_000);
}

/// A last field whose length leaves nothing, the newline or the empty line behind it.
#[test]
fn up_to_the_end() {
    let mut tried = Tried::default();
    for name in [&b"C"[..], b"__C"] {
        let value = b"12345\n\n\n";
        let text = with_stamps(&[line(b"A", b"1"), saying(name, 0, value)]);
        let at = text.len() - 1 - value.len() - 1 - 8;
        for length in 0..20u64 {
            let mut text = text.clone();
            text[at..at + 8].copy_from_slice(&length.to_le_bytes());
            // The value, a newline and an empty line: with one byte less the empty line is not the last.
            let number = if length == 8 { 0 } else { 23 };
            assert_eq!(tried.number(&text), number, "{length}");
        }
    }
}

/// Fewer than 8 bytes for the length, at the text's end.
#[test]
fn cut_in_the_length() {
    let mut tried = Tried::default();
    for name in [&b"C"[..], b"__C", b"_BOOT_ID"] {
        for count in 0..=9 {
            for byte in [0, b'\n', 255] {
                let mut text = with_stamps(&[line(b"A", b"1")]);
                text.pop();
                text.extend([name, b"\n", &vec![byte; count]].concat());
                assert_eq!(tried.number(&text), 23, "{count} of {byte}");
            }
        }
    }
}

/// Long values, whole: taken up to 4,096 bytes of the payload, passed over at any length.
#[test]
fn long_values() {
    let mut tried = Tried::default();
    for length in [4_093, 4_094, 4_095, 5_000, 70_000, 300_000] {
        for form in [line, counted] {
            let value = vec![b'x'; length];
            let text = with_stamps(&[form(b"A", &value), line(b"B", b"1")]);
            let number = if length <= 4_094 { 0 } else { 16 };
            assert_eq!(tried.number(&text), number, "{length}");
            let text = with_stamps(&[form(b"__A", &value), line(b"B", b"1")]);
            assert_eq!(tried.import(&text), Ok(entry(&[b"B=1"])));
            let text = with_stamps(&[form(&value, b""), line(b"B", b"1")]);
            assert_eq!(tried.number(&text), 16);
            let over = [b"__", &value[..]].concat();
            let text = with_stamps(&[form(&over, b""), line(b"B", b"1")]);
            assert_eq!(tried.import(&text), Ok(entry(&[b"B=1"])));
        }
    }
    // Each of the stamps with a value of that length.
    for (name, _) in STAMPS {
        let mut fields = vec![counted(name, &[b'0'; 70_000]), line(b"A", b"1")];
        let others = STAMPS.iter().filter(|it| it.0 != name);
        fields.extend(others.map(|it| line(it.0, it.1)));
        shuffle(&mut Random::new(name.len() as u64), &mut fields);
        assert_eq!(tried.number(&closed(&fields)), 23);
    }
}
