//! Texts cut at every byte, and with one byte changed, added or taken away at every place.
use super::asking::Tried;
use super::forms::with_stamps;
use checks::generator::texts::{closed, counted, line, STAMPS};
use checks::random::Random;

/// Texts that are taken, of every form of a field.
fn texts() -> Vec<Vec<u8>> {
    let stamps = |form: fn(&[u8], &[u8]) -> Vec<u8>| STAMPS.map(|it| form(it.0, it.1));
    let behind = [
        &[line(b"A", b"1")][..],
        &stamps(counted),
        &[counted(b"B", b"")],
    ]
    .concat();
    let over = [
        counted(b"__X", b"\nA=1\n\n"),
        line(b"_PID", b"=2=\xff"),
        line(b"__CURSOR", b""),
        counted(b"LOT", b"12\n"),
    ];
    vec![
        with_stamps(&[line(b"A", b"1"), counted(b"MESSAGE", b"a\0\nb")]),
        closed(&behind),
        with_stamps(&over),
        with_stamps(&[line(b"_", b"")]),
    ]
}

/// With every byte at every place of the first, and at those of the others with some.
fn bytes(text: usize) -> Vec<u8> {
    match text {
        0 => (0..=255).collect(),
        _ => b"\n=_A0Zaf:/G\t \0\x08\x7f\x80\xff".to_vec(),
    }
}

#[test]
fn cut() {
    let mut tried = Tried::default();
    for text in texts() {
        assert_eq!(tried.number(&text), 0);
        for length in 0..text.len() {
            assert_eq!(tried.number(&text[..length]), 23, "{length}");
            // With a newline, or two, where it was cut.
            for end in [&b"\n"[..], b"\n\n"] {
                tried.number(&[&text[..length], end].concat());
            }
        }
        for start in 1..text.len() {
            tried.number(&text[start..]);
        }
    }
    tried.print("texts that are cut");
    assert!(tried.read[24] > 20);
}

#[test]
fn one_byte() {
    let mut tried = Tried::default();
    for (n, text) in texts().iter().enumerate() {
        for at in 0..=text.len() {
            for byte in bytes(n) {
                let mut longer = text.clone();
                longer.insert(at, byte);
                tried.number(&longer);
                if at < text.len() {
                    let mut other = text.clone();
                    other[at] = byte;
                    tried.number(&other);
                }
            }
            if at < text.len() {
                let mut shorter = text.clone();
                shorter.remove(at);
                tried.number(&shorter);
                for bit in 0..8 {
                    let mut other = text.clone();
                    other[at] ^= 1 << bit;
                    tried.number(&other);
                }
            }
        }
    }
    tried.print("texts with one byte changed");
    let numbers = [0, 16, 23, 24];
    assert!(numbers.iter().all(|&number| tried.read[number] > 500));
}

/// A part of a text taken away, doubled, or put elsewhere: by lines, and by any bytes.
#[test]
fn parts() {
    let mut tried = Tried::default();
    for text in texts() {
        let ends = text.iter().enumerate().filter(|it| *it.1 == b'\n');
        let mut starts: Vec<usize> = ends.map(|(at, _)| at + 1).collect();
        starts.insert(0, 0);
        let mut tear = |from: usize, to: usize, into: usize| {
            let (part, rest) = (&text[from..to], [&text[..from], &text[to..]].concat());
            tried.number(&rest);
            tried.number(&[&text[..to], part, &text[to..]].concat());
            let into = into.min(rest.len());
            tried.number(&[&rest[..into], part, &rest[into..]].concat());
        };
        for &from in &starts {
            for &to in starts.iter().filter(|&&to| to > from) {
                for &into in &starts {
                    tear(from, to, into);
                }
            }
        }
        let random = &mut Random::new(text.len() as u64);
        for _ in 0..2_000 {
            let mut ends = [random.below(text.len() + 1), random.below(text.len() + 1)];
            ends.sort();
            tear(ends[0], ends[1], random.below(text.len() + 1));
        }
    }
    tried.print("texts with parts moved");
    assert!([0, 23, 24].iter().all(|&number| tried.read[number] > 100));
}
