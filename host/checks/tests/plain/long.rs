//! Images of nearly the greatest length, and objects far from the start.
use super::asking::Tried;
use checks::generator::compact::set_layout;
use checks::generator::foreign::put;
use checks::generator::full::full_in;
use checks::generator::worked::{appended, first, made_with, request, second};
use reading::layout::{entry, Layout, MOST_BYTES};
use wrapper::raw;

/// 20,000 entries: the first, the last, and none after it.
#[test]
fn many_entries() {
    for layout in Layout::BOTH {
        let image = full_in(layout, 264, &[20_000], true, 5_900_000);
        assert!(7_000_000 < image.len() && image.len() as u64 <= MOST_BYTES);
        let last = raw::plain::entry(&image, 19_999);
        for place in [0, 1, 10_000, 19_999, 20_000, 1 << 32, u64::MAX] {
            let entry = raw::plain::entry(&image, place);
            assert_eq!(entry, raw::entry(&image, place));
            assert_eq!(raw::plain::by_payload(&image, b"A=1", place), entry);
            // Numbers and times are those from 1 on.
            let number = place.saturating_add(1);
            assert_eq!(raw::plain::by_seqnum(&image, number), entry, "{place}");
            assert_eq!(raw::plain::by_realtime(&image, number), entry, "{place}");
            let part = raw::plain::item(&image, entry, 0);
            assert_eq!(part, raw::item(&image, entry, 0));
            assert_eq!(part.len, if place < 20_000 { 3 } else { 0 });
        }
        let value = raw::plain::value(&image, b"A", 0);
        assert_eq!(value, raw::plain::item(&image, last, 0));
        assert_eq!(raw::plain::value(&image, b"A", 1), raw::Part::default());
        let mut wrong = image.clone();
        wrong[(last + entry::XOR_HASH) as usize] ^= 1;
        assert_eq!(raw::plain::entry(&wrong, 0), 11);
        // The last array of the header's chain has another number of items.
        let mut wrong = image;
        wrong[260] ^= 1;
        assert_eq!(raw::plain::entry(&wrong, 0), 14);
        assert_eq!(raw::entry(&wrong, 19_999), last);
    }
}

/// Entries and DATA behind a foreign object of nearly all there is, and before it: their offsets have more
/// than 16 bits.
#[test]
fn far_from_the_start() {
    let mut tried = Tried::default();
    for (layout, length) in Layout::BOTH
        .into_iter()
        .flat_map(|layout| [200_000, MOST_BYTES].map(|length| (layout, length)))
    {
        let mut image = made_with(272, length as usize, 1);
        set_layout(&mut image, layout);
        appended(&mut image, &request(&first(), 1, 1, 1));
        put(&mut image, 200, length - 4_000).expect("there is room");
        appended(&mut image, &request(&second(), 2, 2, 2));
        let other = b"\x06\0\0\0LOT=12\x0a\0\0\0PRIORITY=3";
        appended(&mut image, &request(other, 3, 3, 3));
        assert!(raw::plain::entry(&image, 2) > length - 4_000);
        let step = if length == MOST_BYTES { 40 } else { 1 };
        assert_eq!(tried.some(&image, step), 0);
    }
    tried.print("far from the start");
}
