//! Texts of every kind by the thousand.
use super::asking::Tried;
use checks::generator::texts::{any, good};
use checks::random::Random;

#[test]
fn of_every_kind() {
    let mut tried = Tried::default();
    for seed in 0..200_000 {
        tried.number(&any(&mut Random::new(seed + 600_000)));
    }
    tried.print("texts of every kind");
    tried.covers(10);
    assert!(tried.read[0] > 40_000);
}

/// Good texts, read and written again: what is written is read as the same.
#[test]
fn good_ones() {
    let mut tried = Tried::default();
    for seed in 0..20_000 {
        let text = good(&mut Random::new(seed + 700_000));
        let Ok(entry) = tried.import(&text) else {
            continue;
        };
        let written = tried.text(&entry.stamps, &entry.fields);
        let written = written.expect("16 lets it pass").expect("an entry");
        assert_eq!(tried.import(&written), Ok(entry));
    }
    tried.print("good texts");
    assert!(tried.written[0] > 12_000);
}

/// Any bytes, of any length up to 300.
#[test]
fn any_bytes() {
    let mut tried = Tried::default();
    for seed in 0..5_000 {
        let random = &mut Random::new(seed + 800_000);
        let length = random.below(300);
        let mut bytes = random.bytes(length);
        tried.number(&bytes);
        for byte in &mut bytes {
            *byte = b"\n\n=A\0\x01_1"[*byte as usize % 8];
        }
        tried.number(&bytes);
    }
    tried.print("any bytes");
}
