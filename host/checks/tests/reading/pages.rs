//! The reading's pages of the worked example, word for word.
use checks::generator::worked::{two_appends, LAST};
use reading::pages::{page_entries, page_matches, page_values, Page};

const BOOT: u64 = 0x0505_0505_0505_0505;
/// "DATA 320 .. DATA 456 .. ENTRY 584": a payload lies 64 past its DATA.
const MESSAGE: [u64; 2] = [384, 18];
const PRIORITY: [u64; 2] = [520, 10];

/// The records of both entries, in words.
fn first() -> Vec<u64> {
    let stamps = [584, LAST, 1700000000000000, 50, BOOT, BOOT, 2];
    [&stamps[..], &MESSAGE, &PRIORITY].concat()
}

fn second() -> Vec<u64> {
    let stamps = [736, LAST + 1, 1700000000000001, 60, BOOT, BOOT, 1];
    [&stamps[..], &PRIORITY].concat()
}

/// What a call answers and leaves of a page of a length, all of whose bytes were 0xee.
fn called(length: usize, call: impl FnOnce(&mut [u8]) -> Page) -> (Page, Vec<u8>) {
    let mut page = vec![0xee; length];
    (call(&mut page), page)
}

/// The same as expected: these words, and the rest of the page as it was.
fn expected(length: usize, count: u64, next: u64, words: &[u64]) -> (Page, Vec<u8>) {
    let mut page: Vec<u8> = words.iter().flat_map(|word| word.to_le_bytes()).collect();
    page.resize(length, 0xee);
    let refusal = 0;
    let answer = Page {
        refusal,
        count,
        next,
    };
    (answer, page)
}

#[test]
fn entries() {
    let image = two_appends(1);
    let from = |place, length| called(length, |page| page_entries(&image, place, page));
    let both = [first(), second()].concat();
    assert_eq!(from(0, 160), expected(160, 2, 0, &both));
    assert_eq!(from(0, 200), expected(200, 2, 0, &both));
    assert_eq!(from(0, 159), expected(159, 1, 72, &first()));
    assert_eq!(from(0, 88), expected(88, 1, 72, &first()));
    // The second would fit, but it is not the next.
    assert_eq!(from(0, 87), expected(87, 0, 88, &[]));
    assert_eq!(from(0, 0), expected(0, 0, 88, &[]));
    assert_eq!(from(1, 72), expected(72, 1, 0, &second()));
    assert_eq!(from(1, 71), expected(71, 0, 72, &[]));
    for place in [2, 1 << 32, u64::MAX] {
        assert_eq!(from(place, 160), expected(160, 0, 0, &[]));
    }
}

#[test]
fn matches() {
    let image = two_appends(0);
    let of = |payload: &[u8], place| called(160, |page| page_matches(&image, payload, place, page));
    let both = [first(), second()].concat();
    assert_eq!(of(b"PRIORITY=2", 0), expected(160, 2, 0, &both));
    assert_eq!(of(b"PRIORITY=2", 1), expected(160, 1, 0, &second()));
    assert_eq!(of(b"MESSAGE=lot 12 due", 0), expected(160, 1, 0, &first()));
    assert_eq!(of(b"PRIORITY=", 0), expected(160, 0, 0, &[]));
}

#[test]
fn values() {
    let image = two_appends(0);
    let of = |name: &[u8], length| called(length, |page| page_values(&image, name, 0, page));
    assert_eq!(of(b"PRIORITY", 16), expected(16, 1, 0, &PRIORITY));
    assert_eq!(of(b"MESSAGE", 20), expected(20, 1, 0, &MESSAGE));
    assert_eq!(of(b"MESSAGE", 15), expected(15, 0, 16, &[]));
    assert_eq!(of(b"MESSAG", 20), expected(20, 0, 0, &[]));
}

/// A refused image gives its number alone, and the page is as it was.
#[test]
fn refused() {
    let (answer, page) = called(300, |page| page_entries(&[0; 256], 0, page));
    let refusal = 3;
    let none = Page {
        refusal,
        ..Page::default()
    };
    assert_eq!(answer, none);
    assert_eq!(page, vec![0xee; 300]);
}
