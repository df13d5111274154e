//! The reading's payloads and pages of a stream, word for word, and its refusals.
use checks::generator::worked::{made, two_appends, LAST};
use reading::layout::header;
use reading::merged_answers::{Merged, MergedPage, MergedPart, Opened};

const BOOT: u64 = 0x0505_0505_0505_0505;
/// "DATA 320 .. DATA 456 .. ENTRY 584": a payload lies 64 past its DATA.
const MESSAGE: [u64; 2] = [384, 18];
const PRIORITY: [u64; 2] = [520, 10];

/// The worked example, and the same under another seqnum id: they take turns.
fn both() -> [Vec<u8>; 2] {
    let first = two_appends(1);
    let mut second = two_appends(0);
    second[header::SEQNUM_ID as usize] = 7;
    [first, second]
}

/// The records of both entries of a file, in words.
fn first(file: u64) -> Vec<u64> {
    let stamps = [file, 584, LAST, 1700000000000000, 50, BOOT, BOOT, 2];
    [&stamps[..], &MESSAGE, &PRIORITY].concat()
}

fn second(file: u64) -> Vec<u64> {
    let stamps = [file, 736, LAST + 1, 1700000000000001, 60, BOOT, BOOT, 1];
    [&stamps[..], &PRIORITY].concat()
}

#[test]
fn payloads() {
    let [one, other] = both();
    let opened = Opened::new(&one, &other);
    let item = |at_first, at_second, place| {
        let MergedPart { file, at, len } = opened.item(at_first, at_second, place);
        [file, at, len]
    };
    assert_eq!(item(0, 0, 0), [1, 384, 18]);
    assert_eq!(item(0, 0, 1), [1, 520, 10]);
    assert_eq!(item(0, 0, 2), [0, 0, 0]);
    assert_eq!(item(1, 0, 1), [2, 520, 10]);
    assert_eq!(item(2, 1, 0), [2, 520, 10]);
    assert_eq!(item(2, 1, 1), [0, 0, 0]);
    assert_eq!(item(2, 2, 0), [0, 0, 0]);
    assert_eq!(item(0, 0, u64::MAX), [0, 0, 0]);
}

/// What a page of a length answers and holds, all of whose bytes were 0xee.
fn paged(images: &[Vec<u8>; 2], at: [u64; 2], length: usize) -> ([u64; 6], Vec<u8>) {
    let mut page = vec![0xee; length];
    let opened = Opened::new(&images[0], &images[1]);
    let MergedPage {
        refusal,
        file,
        count,
        next,
        next_first,
        next_second,
    } = opened.page(at[0], at[1], &mut page);
    ([refusal, file, count, next, next_first, next_second], page)
}

/// These words, and the rest of the page as it was.
fn words(words: &[u64], length: usize) -> Vec<u8> {
    let mut page: Vec<u8> = words.iter().flat_map(|word| word.to_le_bytes()).collect();
    page.resize(length, 0xee);
    page
}

#[test]
fn pages() {
    let images = both();
    let all = [first(1), first(2), second(1), second(2)].concat();
    let page = |at, length| paged(&images, at, length);
    assert_eq!(page([0, 0], 352), ([0, 0, 4, 0, 2, 2], words(&all, 352)));
    assert_eq!(page([0, 0], 400), ([0, 0, 4, 0, 2, 2], words(&all, 400)));
    assert_eq!(
        page([0, 0], 351),
        ([0, 0, 3, 80, 2, 1], words(&all[..34], 351))
    );
    assert_eq!(
        page([0, 0], 96),
        ([0, 0, 1, 96, 1, 0], words(&first(1), 96))
    );
    // The third would fit, but it is not the next.
    assert_eq!(page([1, 0], 95), ([0, 0, 0, 96, 1, 0], words(&[], 95)));
    assert_eq!(
        page([0, 2], 176),
        (
            [0, 0, 2, 0, 2, 2],
            words(&[first(1), second(1)].concat(), 176)
        )
    );
    // Where nothing is shown, the places come back as given.
    for at in [[2, 2], [9, 2], [u64::MAX, 1 << 63]] {
        assert_eq!(page(at, 352), ([0, 0, 0, 0, at[0], at[1]], words(&[], 352)));
    }
    // Two that meet are one record.
    let twice = [images[0].clone(), images[0].clone()];
    let expected = words(&[first(1), second(1)].concat(), 200);
    assert_eq!(paged(&twice, [0, 0], 200), ([0, 0, 2, 0, 2, 2], expected));
}

/// "the first file's number, else the second's, with which file it was", and nothing else.
#[test]
fn refused() {
    let good = made(4_096, 0);
    let (three, one) = (vec![0; 256], vec![0; 255]);
    for (first, second, refusal, file) in [
        (&three, &good, 3, 1),
        (&good, &three, 3, 2),
        (&three, &one, 3, 1),
        (&one, &three, 1, 1),
    ] {
        let opened = Opened::new(first, second);
        let expected = Merged {
            refusal,
            file,
            ..Merged::default()
        };
        assert_eq!(opened.merged(7, 8), expected);
        assert_eq!(opened.item(0, 0, 0), MergedPart::default());
        let images = [first.clone(), second.clone()];
        let expected = ([refusal, file, 0, 0, 0, 0], words(&[], 100));
        assert_eq!(paged(&images, [7, 8], 100), expected);
    }
}
