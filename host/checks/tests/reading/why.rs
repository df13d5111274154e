//! Why an image is refused, by the reading: on the rules' worked example, whose places are known, and on
//! files damaged by hand.
use checks::against::trial::hex;
use checks::generator::faulty::sample::{drawn, forms, sample};
use checks::generator::faulty::{cases, Case};
use checks::generator::frame::set;
use checks::generator::worked::{two_appends, LAST};
use reading::lookup3::hashlittle2;
use reading::refusal::refusal;
use reading::why::{why, Why};

const MESSAGE: &[u8] = b"MESSAGE=lot 12 due";
const PRIORITY: &[u8] = b"PRIORITY=2";

/// "DATA 320, FIELD 408, DATA 456, FIELD 536, ENTRY 584, array 680", and then "ENTRY 736, array 816, end
/// 872"; with lookup3 for its hash, and some words changed.
fn of(words: &[(u64, u64)]) -> Why {
    let mut image = two_appends(0);
    for &(at, value) in words {
        set(&mut image, at, value);
    }
    why(&image)
}

fn at(refusal: u64, place: u64) -> Why {
    Why {
        refusal,
        place,
        ..Why::default()
    }
}

fn wrong(place: u64, stored: u64, right: u64) -> Why {
    Why {
        refusal: 11,
        place,
        hash_wrong: 1,
        stored,
        right,
    }
}

#[test]
fn a_file_that_opens() {
    assert_eq!(of(&[]), Why::default());
    // Counters and free words play no part.
    assert_eq!(of(&[(144, 0), (208, 7), (712, 736)]), Why::default());
}

#[test]
fn the_header() {
    assert_eq!(why(&[0; 255]), at(1, 0));
    assert_eq!(why(&vec![0; 8_388_609]), at(2, 0));
    assert_eq!(of(&[(0, 0)]), at(3, 0));
    assert_eq!(of(&[(8, 1 << 32)]), at(4, 0));
    assert_eq!(of(&[(88, 248)]), at(5, 0));
    // A table's offset, and a third table, at 584.
    assert_eq!(of(&[(104, 256)]), at(7, 0));
    assert_eq!(of(&[(584, 5)]), at(7, 0));
}

#[test]
fn the_walk() {
    for tail in [0, 8, 255] {
        assert_eq!(of(&[(136, tail)]), at(6, 0));
    }
    for (tail, place) in [(257, 256), (296, 288), (600, 584), (735, 680), (871, 816)] {
        assert_eq!(of(&[(136, tail)]), at(6, place));
    }
    // Zeros from 872 on, which are no object; an arena that ends there, or 8 bytes later.
    assert_eq!(of(&[(136, 872)]), at(6, 872));
    assert_eq!(of(&[(136, 872), (96, 616)]), at(6, 816));
    assert_eq!(of(&[(136, u64::MAX), (96, 616)]), at(6, 816));
    assert_eq!(of(&[(136, 872), (96, 624)]), at(6, 872));
    assert_eq!(of(&[(136, u64::MAX), (96, 624)]), at(6, 872));
    // No arena, and one of 8 bytes.
    assert_eq!(of(&[(96, 0)]), at(6, 0));
    assert_eq!(of(&[(96, 8)]), at(6, 256));
    // Type 0 at 736, flags at 456, and a size at 408.
    assert_eq!(of(&[(736, 0)]), at(6, 736));
    assert_eq!(of(&[(736, 0), (456, 0x101)]), at(6, 456));
    assert_eq!(of(&[(736, 0), (416, 40)]), at(6, 408));
}

#[test]
fn links() {
    for (word, value, place) in [
        // entry_array_offset, and the heads of both tables' cells.
        (176, 816 + 8, 0),
        (272, 408, 256),
        (304, 320, 288),
        // next_hash, next_field, entry_offset and entry_array.
        (344, 320, 320),
        (488, 456, 456),
        (496, 680, 456),
        (504, 736, 456),
        (432, 408, 408),
        (568, 584, 536),
        // The second item of an ENTRY is its first, and the next array is the same.
        (664, 320, 584),
        (696, 680, 680),
    ] {
        assert_eq!(of(&[(word, value)]), at(8, place), "{word}");
        // Before 9, 10 and 11, and before a later one of 8.
        let others = [(152, 9), (376, 0), (336, 1), (832, 816)];
        let words = [&[(word, value)], &others[..]].concat();
        assert_eq!(of(&words), at(8, place), "{word}");
    }
}

#[test]
fn positions() {
    // Items 0 and 1 at 704 and 712, two more that are 0; sequence numbers at 600 and 752, monotonic times
    // at 616 and 768.
    for n_entries in [3, 4, 5, u64::MAX] {
        assert_eq!(of(&[(152, n_entries)]), at(9, 2));
    }
    assert_eq!(of(&[(704, 0)]), at(9, 0));
    assert_eq!(of(&[(704, 816)]), at(9, 0));
    assert_eq!(of(&[(712, 744)]), at(9, 1));
    assert_eq!(of(&[(712, 584)]), at(9, 1));
    assert_eq!(of(&[(600, 0)]), at(9, 0));
    assert_eq!(of(&[(752, LAST)]), at(9, 1));
    assert_eq!(of(&[(768, 49)]), at(9, 1));
    assert_eq!(of(&[(768, 49), (600, 0)]), at(9, 0));
    assert_eq!(of(&[(152, 5), (768, 49)]), at(9, 1));
}

#[test]
fn lists() {
    assert_eq!(of(&[(376, 2)]), at(10, 320));
    assert_eq!(of(&[(376, 0)]), at(10, 320));
    assert_eq!(of(&[(512, 1)]), at(10, 456));
    assert_eq!(of(&[(512, 9)]), at(10, 456));
    assert_eq!(of(&[(840, 584)]), at(10, 456));
    assert_eq!(of(&[(840, 584), (376, u64::MAX)]), at(10, 320));
    assert_eq!(of(&[(512, u64::MAX), (376, 0)]), at(10, 320));
}

#[test]
fn hashes() {
    let [message, priority] = [MESSAGE, PRIORITY].map(hashlittle2);
    let name = hashlittle2(b"MESSAGE");
    assert_eq!(of(&[(336, 5)]), wrong(320, 5, message));
    assert_eq!(of(&[(472, 0)]), wrong(456, 0, priority));
    assert_eq!(of(&[(424, 1)]), wrong(408, 1, name));
    // xor_hash at 640, the items' hashes at 656 and 672.
    let both = message ^ priority;
    assert_eq!(of(&[(640, 0)]), wrong(584, 0, both));
    assert_eq!(of(&[(656, 3)]), wrong(584, 3, message));
    assert_eq!(of(&[(672, 4)]), wrong(584, 4, priority));
    assert_eq!(of(&[(672, 4), (656, 3)]), wrong(584, 3, message));
    assert_eq!(of(&[(672, 4), (640, 2)]), wrong(584, 2, both));
    // The lowest place, whatever the clause: an ENTRY at 736, another at 584, DATA and FIELDs before.
    assert_eq!(of(&[(816 - 8, 7)]), wrong(736, 7, priority));
    assert_eq!(of(&[(808, 7), (656, 3)]), wrong(584, 3, message));
    assert_eq!(of(&[(808, 7), (552, 3)]).place, 536);
    assert_eq!(of(&[(808, 7), (552, 3), (472, 1)]).place, 456);
}

#[test]
fn cells_and_lists() {
    // FIELD 536 lists DATA 320 of another name; FIELD 408 has no list, or that of the other.
    assert_eq!(of(&[(568, 320)]), at(11, 320));
    assert_eq!(of(&[(440, 0)]), at(11, 320));
    assert_eq!(of(&[(440, 456)]), at(11, 320));
    assert_eq!(of(&[(568, 0)]), at(11, 456));
    // DATA 456 goes on with 320 in its FIELD's list.
    assert_eq!(of(&[(488, 320)]), at(11, 320));
    // The chain of the FIELDs without its first, without its second; that of the DATA.
    assert_eq!(of(&[(304, 536)]), at(11, 320));
    assert_eq!(of(&[(432, 0)]), at(11, 456));
    assert_eq!(of(&[(272, 456)]), at(11, 320));
    assert_eq!(of(&[(344, 0)]), at(11, 456));
    // And a hash that is wrong elsewhere, before, and there.
    assert_eq!(of(&[(568, 320), (808, 7)]), at(11, 320));
    assert_eq!(of(&[(344, 0), (424, 7)]).place, 408);
    let message = hashlittle2(MESSAGE);
    assert_eq!(of(&[(568, 320), (336, 7)]), wrong(320, 7, message));
    // Nothing before `=`: the hash and those of the ENTRY are wrong too.
    let mut image = two_appends(0);
    image[320 + 64] = b'=';
    let right = hashlittle2(b"=ESSAGE=lot 12 due");
    assert_eq!(why(&image), wrong(320, message, right));
}

#[test]
fn files_damaged_by_hand() {
    let mut numbers = [0; 12];
    for form in forms() {
        let whole = drawn(&sample(form)).image;
        assert_eq!(why(&whole), Why::default());
        for case in cases(form) {
            let is = why(&case.image);
            let Case { what, image, why } = &case;
            assert_eq!(is, *why, "{form:?}: {what}, of {}", hex(image));
            assert_eq!(is.refusal, refusal(image));
            numbers[is.refusal as usize] += 1;
        }
    }
    println!("by their number {numbers:?}");
    assert!(numbers[1..].iter().all(|&count| count > 0));
}
