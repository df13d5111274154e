//! Compact files, by examples worked out by hand: where all stands and what is stored.
use crate::examples::objects;
use checks::generator::compact::set_layout;
use checks::generator::worked::*;
use reading::image::le64;
use reading::layout::{header, Layout};
use reading::lookup::{open, Part};
use reading::lookup3::hashlittle2;
use reading::plan::plan;
use reading::refusal::refusal;

/// A compact file of 4,096 bytes, one cell each.
pub fn made_compact(header_size: u64, keyed: u64) -> Vec<u8> {
    let mut image = made_with(header_size, 4096, keyed);
    set_layout(&mut image, Layout::Compact);
    image
}

/// "Then `MESSAGE=lot 12 due` and `PRIORITY=2`": DATA of 90 and 82 bytes, an ENTRY of 72 and an array of
/// 40, so that 49 words are new.
#[test]
fn a_first_append() {
    for keyed in [0, 1] {
        let mut image = made_compact(256, keyed);
        assert_eq!(refusal(&image), 0);
        assert_eq!(image[12], 16 + 4 * keyed as u8);
        let fields = first();
        let ask = request(&fields, LAST, 1700000000000000, 50);
        let stores = plan(&image, &ask).expect("taken");
        assert_eq!(stores.len(), 69);
        assert_eq!(stores[67].offset, header::N_ENTRIES);
        assert_eq!(appended(&mut image, &ask), 69);
        let new = [(320, 1), (416, 2), (464, 1), (552, 2), (600, 3), (672, 6)];
        assert_eq!(objects(&image)[2..], new);
        for (at, value) in [
            (320 + 8, 90),
            (320 + 40, 600),
            (320 + 56, 1),
            // New DATA have tail fields 0.
            (320 + 64, 0),
            (464 + 8, 82),
            (464 + 64, 0),
            (600 + 8, 72),
            // The two items in one word.
            (600 + 64, 320 + (464 << 32)),
            (672 + 8, 40),
            (672 + 24, 600),
            (672 + 32, 0),
        ] {
            assert_eq!(le64(&image, at), value, "the word at {at}");
        }
        assert_eq!(&image[392..410], b"MESSAGE=lot 12 due");
        let journal = open(&image).expect("it opens");
        let shown = journal.items(600);
        let [message, priority] = [(392, 18), (536, 10)];
        let part = |(place, length)| Part { place, length };
        assert_eq!(shown, [part(message), part(priority)]);
    }
}

/// "Then `PRIORITY=2` alone", and once more: an ENTRY of 68 bytes, padded with 0.
#[test]
fn the_stores_of_the_next_two() {
    let boot = u64::from_le_bytes([5; 8]);
    let mut image = made_compact(256, 1);
    appended(&mut image, &request(&first(), LAST, 1700000000000000, 50));
    let listed = |image: &[u8], n: u64| {
        let fields = second();
        let stores = plan(image, &request(&fields, LAST + n, n, 60 + n)).expect("taken");
        let stores = stores.iter().map(|it| (it.offset, it.value));
        stores.collect::<Vec<(u64, u64)>>()
    };
    let xor_hash = hashlittle2(b"PRIORITY=2");
    let expected = [
        (16, 1),
        // The ENTRY, its item, and four bytes of padding.
        (712, 3),
        (720, 68),
        (728, LAST + 1),
        (736, 1),
        (744, 61),
        (752, boot),
        (760, boot),
        (768, xor_hash),
        (776, 464),
        // The first array of the DATA at 464, of four items.
        (784, 6),
        (792, 40),
        (800, 0),
        (808, 712),
        (816, 0),
        (136, 784),
        (144, 10),
        (208, 2),
        (216, 2),
        (232, 2),
        // The DATA's entry_array, and the second item of the global array beside the first.
        (512, 784),
        (696, 600 + (712 << 32)),
        // The DATA's count, and its tail word: one item of the array at 784.
        (520, 2),
        (528, 784 + (1 << 32)),
        (56, boot),
        (64, boot),
        (160, LAST + 1),
        (192, 1),
        (200, 61),
        (152, 2),
        (16, 0),
    ];
    assert_eq!(listed(&image, 1), expected);
    appended(&mut image, &request(&second(), LAST + 1, 1, 61));
    let expected = [
        (16, 1),
        (824, 3),
        (832, 68),
        (840, LAST + 2),
        (848, 2),
        (856, 62),
        (864, boot),
        (872, boot),
        (880, xor_hash),
        (888, 464),
        (136, 824),
        (144, 11),
        (208, 2),
        (216, 2),
        (232, 2),
        // The third item of the global array, and the second of the DATA's, beside its first.
        (704, 824),
        (808, 712 + (824 << 32)),
        (520, 3),
        (528, 784 + (2 << 32)),
        (56, boot),
        (64, boot),
        (160, LAST + 2),
        (192, 2),
        (200, 62),
        (152, 3),
        (16, 0),
    ];
    assert_eq!(listed(&image, 2), expected);
}

/// With a header of 272 all is 16 bytes later, and group 6 has two stores more.
#[test]
fn with_a_longer_header() {
    let mut image = made_compact(272, 0);
    let (first, second) = (first(), second());
    assert_eq!(appended(&mut image, &request(&first, LAST, 0, 0)), 71);
    let next = request(&second, LAST + 1, 1, 1);
    assert_eq!(appended(&mut image, &next), 33);
    assert_eq!(le64(&image, 256), 688 + (2 << 32));
    assert_eq!(le64(&image, 264), 728);
    assert_eq!(le64(&image, 480 + 64), 800 + (1 << 32));
    assert_eq!(refusal(&image), 0);
}
