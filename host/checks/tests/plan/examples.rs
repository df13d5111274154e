//! The worked examples of the rules, by the archive's calls alone.
use checks::against::plan::Append;
use checks::generator::frame::set;
use checks::generator::worked::{first, request, second, LAST};
use reading::layout::header;
use reading::request::packed;
use wrapper::{entry, open, stamps, Planned};

use crate::made::{made, made_with, Tried};

#[test]
fn two_appends() {
    let mut tried = Tried::default();
    for keyed in [false, true] {
        let mut image = made(4096, (1, 1), keyed);
        let fields = first();
        let stores = tried.carried(&mut image, request(&fields, LAST, 1700000000000000, 50));
        assert_eq!(stores.len(), 72);
        assert_eq!(stores[70], (header::N_ENTRIES, 1));
        // Every word of the new objects, DATA 320, FIELD 408, DATA 456, FIELD 536, ENTRY 584 and
        // array 680, up to 736.
        let words: Vec<u64> = stores[1..53].iter().map(|store| store.0).collect();
        assert_eq!(words, (320..736).step_by(8).collect::<Vec<u64>>());
        let kinds = [(320, 1), (408, 2), (456, 1), (536, 2), (584, 3), (680, 6)];
        assert!(kinds.iter().all(|kind| stores.contains(kind)));
        assert_eq!(open(&image), Ok(()));

        let fields = second();
        let next = |seqnum: u64| request(&fields, seqnum, 1700000000000001, 60);
        assert_eq!(tried.append(&image, next(LAST)), 17);
        assert_eq!(tried.append(&image, next(0)), 17);
        let stores = tried.carried(&mut image, next(LAST + 1));
        assert_eq!(stores.len(), 33);
        assert!(stores.contains(&(736, 3)) && stores.contains(&(816, 6)));
        assert_eq!(stores[1..18].last().map(|store| store.0), Some(872 - 8));
        assert_eq!(stores[31], (header::N_ENTRIES, 2));

        // What the listing shows.
        let lines = [0, 1].map(|place| {
            let at = entry(&image, place).expect("it opens").expect("an entry");
            let it = stamps(&image, at).expect("it opens").expect("an entry");
            [it.seqnum, it.realtime, it.monotonic, it.items]
        });
        assert_eq!(
            lines,
            [
                [9223372036854775807, 1700000000000000, 50, 2],
                [9223372036854775808, 1700000000000001, 60, 1]
            ]
        );
        assert_eq!(entry(&image, 2), Ok(None));
    }
}

/// The same with a header of 272: everything stands 16 bytes later, and group 6 has two stores more.
#[test]
fn two_appends_with_272() {
    let mut tried = Tried::default();
    for keyed in [false, true] {
        let mut image = made_with(272, 4096, (1, 1), keyed);
        let fields = first();
        let stores = tried.carried(&mut image, request(&fields, LAST, 1700000000000000, 50));
        assert_eq!(stores.len(), 74);
        // The array at 696 with one committed item, the ENTRY at 600, and then the commit store.
        let late = [(256, 1 << 32 | 696), (264, 600), (header::N_ENTRIES, 1)];
        assert_eq!(stores[70..73], late);
        let words: Vec<u64> = stores[1..53].iter().map(|store| store.0).collect();
        assert_eq!(words, (336..752).step_by(8).collect::<Vec<u64>>());
        let kinds = [(336, 1), (424, 2), (472, 1), (552, 2), (600, 3), (696, 6)];
        assert!(kinds.iter().all(|kind| stores.contains(kind)));
        assert_eq!(open(&image), Ok(()));

        let fields = second();
        let next = request(&fields, LAST + 1, 1700000000000001, 60);
        let stores = tried.carried(&mut image, next);
        assert_eq!(stores.len(), 35);
        assert!(stores.contains(&(752, 3)) && stores.contains(&(832, 6)));
        let late = [(256, 2 << 32 | 696), (264, 752), (header::N_ENTRIES, 2)];
        assert_eq!(stores[31..34], late);
        // No flag is changed: compatible bit 1, and the keyed hash or not.
        assert_eq!(image[8..16], [2, 0, 0, 0, 4 * keyed as u8, 0, 0, 0]);
    }
}

#[test]
fn arena_480_holds_it_and_472_is_18() {
    let mut tried = Tried::default();
    let fields = first();
    let ask = request(&fields, LAST, 1700000000000000, 50);
    for keyed in [false, true] {
        assert_eq!(tried.append(&made(736, (1, 1), keyed), ask), 0);
        assert_eq!(tried.append(&made(728, (1, 1), keyed), ask), 18);
        for (length, number) in [(752, 0), (744, 18), (736, 18)] {
            let image = made_with(272, length, (1, 1), keyed);
            assert_eq!(tried.append(&image, ask), number);
        }
        // The arena's end, and not the image's.
        for (arena, number) in [(480, 0), (472, 18)] {
            let mut image = made(4096, (1, 1), keyed);
            set(&mut image, header::ARENA_SIZE, arena);
            assert_eq!(tried.append(&image, ask), number);
        }
    }
}

#[test]
fn a_list_too_short_is_19_with_the_need() {
    let fields = first();
    let image = made(4096, (1, 1), false);
    let append = Append::new(&image, request(&fields, LAST, 1700000000000000, 50));
    for length in (0..16 * 72 + 40).rev() {
        let expected = if length < 16 * 72 {
            Planned::TooShort { need: 72 }
        } else {
            Planned::Stores { count: 72 }
        };
        let (planned, _) = append
            .put(length, length as u64)
            .unwrap_or_else(|difference| panic!("{difference}"));
        assert_eq!(planned, expected, "a list of {length} bytes");
    }
}

#[test]
fn sixty_five_fields_are_16() {
    let mut tried = Tried::default();
    let image = made(8192, (1, 1), false);
    for (count, number) in [(0, 16), (1, 0), (64, 0), (65, 16), (66, 16), (1000, 16)] {
        let fields = packed(&vec![&b"A=1"[..]; count]);
        assert_eq!(tried.append(&image, request(&fields, 1, 1, 1)), number);
    }
}
