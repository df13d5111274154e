//! Headers of 264 and 272 bytes, by examples worked out by hand: where all stands, what is stored, what
//! 12, 25 and 14 say, and what the boot id means.
use crate::examples::objects;
use checks::generator::draft::Draft;
use checks::generator::frame::set;
use checks::generator::full::full_with;
use checks::generator::render::render;
use checks::generator::worked::*;
use checks::random::Random;
use reading::boot::{boot_meaning, BootMeaning};
use reading::fit::fourteen;
use reading::image::{le64, Image};
use reading::layout::{header, kind, HEADER_SIZES};
use reading::lookup3::hashlittle2;
use reading::plan::plan;
use reading::refusal::clause::*;
use reading::refusal::refusal;
use reading::request::packed;
use reading::tail::{tail, Tail, TailArray};

/// The first refusal of an append, 0 if it is taken.
fn number(image: &[u8], seqnum: u64) -> u64 {
    let fields = packed(&[b"A=1"]);
    let planned = plan(image, &request(&fields, seqnum, 9, 9));
    planned.map_or_else(|found| found[0].number, |_| 0)
}

#[test]
fn a_new_file_of_272() {
    for keyed in [0, 1] {
        let image = made_with(272, 4096, keyed);
        assert_eq!(refusal(&image), 0);
        let tables = [(272, kind::DATA_HASH_TABLE), (304, kind::FIELD_HASH_TABLE)];
        assert_eq!(objects(&image), tables);
        for (at, value) in [
            (header::COMPATIBLE_FLAGS, 2 | 4 * keyed << 32),
            (header::HEADER_SIZE, 272),
            (header::ARENA_SIZE, 3824),
            (header::DATA_HASH_TABLE_OFFSET, 288),
            (header::FIELD_HASH_TABLE_OFFSET, 320),
            (header::TAIL_OBJECT_OFFSET, 304),
            (256, 0),
            (264, 0),
        ] {
            assert_eq!(le64(&image, at), value, "the word at {at}");
        }
    }
    assert_eq!(refusal(&made_with(272, 336, 0)), 0);
}

/// "DATA 320, FIELD 408, DATA 456, FIELD 536, ENTRY 584, array 680, end 736", each 16 bytes later.
#[test]
fn two_appends() {
    let mut image = made_with(272, 4096, 1);
    let fields = first();
    let ask = request(&fields, LAST, 1700000000000000, 50);
    let stores = plan(&image, &ask).expect("taken");
    assert_eq!(stores.len(), 74);
    assert_eq!(stores[72].offset, header::N_ENTRIES);
    assert_eq!(appended(&mut image, &ask), 74);
    let new = [(336, 1), (424, 2), (472, 1), (552, 2), (600, 3), (696, 6)];
    assert_eq!(objects(&image)[2..], new);
    let fields = second();
    let stores = plan(&image, &request(&fields, LAST + 1, 1700000000000001, 60)).expect("taken");
    let stores: Vec<(u64, u64)> = stores.iter().map(|it| (it.offset, it.value)).collect();
    let boot = u64::from_le_bytes([5; 8]);
    let expected = [
        (16, 1),
        // The ENTRY.
        (752, 3),
        (760, 80),
        (768, LAST + 1),
        (776, 1700000000000001),
        (784, 60),
        (792, boot),
        (800, boot),
        (808, hashlittle2(b"PRIORITY=2")),
        (816, 472),
        (824, Image::walked(&image).hash(b"PRIORITY=2")),
        // The array of the DATA at 472.
        (832, 6),
        (840, 56),
        (848, 0),
        (856, 752),
        (864, 0),
        (872, 0),
        (880, 0),
        // tail_object_offset, n_objects, n_data, n_fields, n_entry_arrays.
        (136, 832),
        (144, 10),
        (208, 2),
        (216, 2),
        (232, 2),
        // The DATA's entry_array, the second item of the global array, the DATA's n_entries.
        (520, 832),
        (728, 752),
        (528, 2),
        (56, boot),
        (64, boot),
        (160, LAST + 1),
        (192, 1700000000000001),
        (200, 60),
        // The array at 696 with two committed items, and the last entry.
        (256, 696 + (2 << 32)),
        (264, 752),
        (152, 2),
        (16, 0),
    ];
    assert_eq!(stores, expected);
}

/// The least file with no entry, of each header size: 12 for a compatible bit, but for bit 1 with 272;
/// then 25 for 264; then 13.
#[test]
fn twelve_and_twenty_five() {
    for header_size in HEADER_SIZES {
        let draft = Draft {
            header_size,
            spare: 504,
            ..Draft::of(Vec::new())
        };
        let image = render(&draft, &mut Random::new(1)).image;
        let of_264 = |other: u64| if header_size == 264 { 25 } else { other };
        let bit_1 = if header_size == 272 { 0 } else { 12 };
        for (flags, expected) in [(0, of_264(0)), (2, bit_1), (1, 12), (3, 12), (4, 12)] {
            let mut image = image.clone();
            image[8] = flags;
            assert_eq!(number(&image, 1), expected, "{header_size}, {flags}");
            image[header::STATE as usize] = 1;
            let expected = if expected == 0 { 13 } else { expected };
            assert_eq!(number(&image, 1), expected, "{header_size}, {flags}");
        }
        assert_eq!(refusal(&image[..256]), 5);
    }
    assert_eq!(refusal(&made_with(272, 4096, 0)[..271]), 5);
    assert_eq!(refusal(&made_with(272, 4096, 0)[..255]), 1);
}

/// 14 on the fields that a header has; an append to 264 never gets there.
#[test]
fn late_fields() {
    let found = |image: &[u8]| {
        let mut found = Vec::new();
        fourteen(&Image::walked(image), &mut found);
        found
    };
    for header_size in HEADER_SIZES {
        // Arrays of 2 and 4 items, all committed.
        let image = full_with(header_size, &[2, 4], false, 504);
        let words = Image::walked(&image);
        let arrays = words.arrays(words.word(header::ENTRY_ARRAY_OFFSET));
        let right = Tail {
            array: TailArray {
                offset: arrays[1].offset,
                n_entries: 4,
            },
            entry_offset: words.of_kind(kind::ENTRY)[5].offset,
        };
        assert_eq!(tail(&words), right);
        assert_eq!(found(&image), []);
        let with = |at: u64, value: u64| {
            let mut image = image.clone();
            set(&mut image, at, value);
            found(&image)
        };
        let word = arrays[1].offset + (4 << 32);
        if header_size >= 264 {
            assert_eq!(with(256, word + 8), [TAIL_ARRAY]);
            assert_eq!(with(256, word + (1 << 32)), [TAIL_ARRAY_COUNT]);
            assert_eq!(with(256, 0), [TAIL_ARRAY, TAIL_ARRAY_COUNT]);
            assert_eq!(with(256, word), []);
        }
        if header_size == 272 {
            assert_eq!(with(264, 0), [TAIL_ENTRY]);
            assert_eq!(with(264, right.entry_offset + (1 << 32)), [TAIL_ENTRY]);
        }
        // The boot id is never compared.
        assert_eq!(with(header::BOOT_ID, 77), []);
    }
}

#[test]
fn the_boot_ids_meaning() {
    let said = |image: &[u8]| {
        let it = boot_meaning(image);
        (it.refusal, it.of_tail_entry)
    };
    assert_eq!(said(&made(4096, 0)), (0, 0));
    let mut image = made_with(272, 4096, 0);
    assert_eq!(said(&image), (0, 1));
    image[8] = 0xfd;
    assert_eq!(said(&image), (0, 0));
    image[8] = 0xff;
    assert_eq!(said(&image), (0, 1));
    image[header::HEADER_SIZE as usize] = 0;
    let refused = BootMeaning {
        refusal: 6,
        of_tail_entry: 0,
    };
    assert_eq!(boot_meaning(&image), refused);
    assert_eq!(said(&[0xff; 300]), (3, 0));
}
