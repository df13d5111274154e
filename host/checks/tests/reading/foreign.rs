//! The reading of foreign objects, by examples.
use checks::generator::foreign::put;
use checks::generator::frame::{frame, set};
use checks::generator::worked::{appended, first, made, request, second, two_appends, LAST};
use reading::foreign::{foreign, Foreign};
use reading::layout::{header, kind::TAG};

fn named(image: &[u8]) -> Vec<(u64, u64)> {
    let all = (0..).map(|place| foreign(image, place));
    let all = all.take_while(|it| *it != Foreign::default());
    all.map(|it| {
        assert_eq!(it.refusal, 0);
        (it.offset, it.kind)
    })
    .collect()
}

const NONE: Foreign = Foreign {
    refusal: 0,
    offset: 0,
    kind: 0,
};

/// The worked example has none. Behind its tables at 256 and 288 a first one stands at 320.
#[test]
fn by_place() {
    assert_eq!(foreign(&two_appends(1), 0), NONE);
    let mut image = made(4096, 1);
    assert_eq!(put(&mut image, 8, 16), Some(320));
    assert_eq!(put(&mut image, 200, 17), Some(336));
    // "its offset plus its size rounded up to a multiple of 8"
    assert_eq!(put(&mut image, 255, 24), Some(360));
    assert_eq!(named(&image), [(320, 8), (336, 200), (360, 255)]);
    for place in [3, 4, 1 << 32, 1 << 63, u64::MAX] {
        assert_eq!(foreign(&image, place), NONE);
    }
    // An append changes nothing of them, and one that comes later is last.
    appended(&mut image, &request(&first(), LAST, 1, 1));
    assert_eq!(named(&image).len(), 3);
    let last = put(&mut image, 9, 99).expect("room");
    appended(&mut image, &request(&second(), LAST + 1, 1, 1));
    assert_eq!(named(&image)[3..], [(last, 9)]);
}

/// "each walked object of type 8 and up": none of 1 to 7, and none behind the tail object.
#[test]
fn walked_and_of_type_8_and_up() {
    let mut image = frame(&[(TAG, 64), (8, 16), (TAG, 64), (9, 16)]);
    assert_eq!(named(&image), [(384, 8), (464, 9)]);
    for (tail, count) in [(464, 2), (400, 1), (384, 1), (320, 0), (288, 0)] {
        set(&mut image, header::TAIL_OBJECT_OFFSET, tail);
        assert_eq!(named(&image).len(), count, "{tail}");
    }
}

/// "A refusal gives its number and nothing else".
#[test]
fn refused() {
    let mut image = frame(&[(8, 16), (9, 16)]);
    let refused = |refusal: u64| Foreign { refusal, ..NONE };
    for place in [0, 1, 2, u64::MAX] {
        assert_eq!(foreign(&image[..255], place), refused(1));
        set(&mut image, header::N_ENTRIES, 1);
        assert_eq!(foreign(&image, place), refused(9));
        set(&mut image, header::N_ENTRIES, 0);
    }
    assert_eq!(named(&image).len(), 2);
}
