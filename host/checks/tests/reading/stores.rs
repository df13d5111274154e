//! The stores of an append word by word, its sync points, the sizes of arrays, and carrying out.
use checks::generator::full::full;
use checks::generator::worked::{appended, first, made, request, second, LAST};
use reading::carry::{carry_out, Store};
use reading::image::Image;
use reading::layout::kind;
use reading::lookup3::hashlittle2;
use reading::plan::{plan, sync_points};
use reading::request::{packed, Request};

#[test]
fn the_stores_of_the_second_append() {
    let mut image = made(4096, 1);
    // The word at 16 keeps its reserved bytes.
    image[16..24].copy_from_slice(&[0, 1, 2, 3, 4, 5, 6, 7]);
    let fields = first();
    appended(&mut image, &request(&fields, LAST, 1700000000000000, 50));
    assert_eq!(image[16..24], [0, 1, 2, 3, 4, 5, 6, 7]);
    let fields = second();
    let stores = plan(&image, &request(&fields, LAST + 1, 1700000000000001, 60)).expect("taken");
    let stores: Vec<(u64, u64)> = stores
        .iter()
        .map(|store| (store.offset, store.value))
        .collect();
    let boot = u64::from_le_bytes([5; 8]);
    let hash = Image::walked(&image).hash(b"PRIORITY=2");
    let reserved = 0x0706050403020100;
    let expected = [
        (16, reserved + 1),
        // The ENTRY.
        (736, 3),
        (744, 80),
        (752, LAST + 1),
        (760, 1700000000000001),
        (768, 60),
        (776, boot),
        (784, boot),
        (792, hashlittle2(b"PRIORITY=2")),
        (800, 456),
        (808, hash),
        // The array of the DATA at 456.
        (816, 6),
        (824, 56),
        (832, 0),
        (840, 736),
        (848, 0),
        (856, 0),
        (864, 0),
        // tail_object_offset, n_objects, n_data, n_fields, n_entry_arrays.
        (136, 816),
        (144, 10),
        (208, 2),
        (216, 2),
        (232, 2),
        // The DATA's entry_array, and the second item of the global array.
        (504, 816),
        (712, 736),
        // The DATA's n_entries.
        (512, 2),
        (56, boot),
        (64, boot),
        (160, LAST + 1),
        (192, 1700000000000001),
        (200, 60),
        (152, 2),
        (16, reserved),
    ];
    assert_eq!(stores, expected);
    // A spare item that already holds the coming ENTRY's offset is not stored.
    image[712..720].copy_from_slice(&736u64.to_le_bytes());
    let fewer = plan(&image, &request(&fields, LAST + 1, 1700000000000001, 60)).expect("taken");
    let fewer: Vec<(u64, u64)> = fewer
        .iter()
        .map(|store| (store.offset, store.value))
        .collect();
    assert_eq!(
        fewer,
        expected
            .into_iter()
            .filter(|store| store.0 != 712)
            .collect::<Vec<_>>()
    );
}

/// Behind groups 1 and 2, 3, 4, 5 and 6, 7, 8; a group without stores has no sync of its own.
#[test]
fn sync_points_of_groups() {
    for (lengths, points) in [
        ([1, 52, 5, 5, 0, 7, 1, 1], vec![53, 58, 63, 70, 71, 72]),
        ([1, 17, 5, 2, 1, 5, 1, 1], vec![18, 23, 25, 31, 32, 33]),
        ([1, 17, 5, 0, 1, 5, 1, 1], vec![18, 23, 29, 30, 31]),
    ] {
        let store = Store {
            offset: 16,
            value: 0,
        };
        let groups = lengths.map(|length| vec![store; length]);
        assert_eq!(sync_points(&groups), points);
    }
}

fn array_items(image: &[u8]) -> Vec<u64> {
    Image::walked(image)
        .of_kind(kind::ENTRY_ARRAY)
        .iter()
        .map(|array| (array.size - 24) / 8)
        .collect()
}

#[test]
fn arrays_grow_from_4_by_twice() {
    let mut image = made(16384, 0);
    let fields = second();
    for n in 1..=30 {
        appended(&mut image, &request(&fields, n, n, n));
    }
    // The global chain after 0, 4, 12 and 28 entries; the DATA's after 1, 5, 13 and 29.
    assert_eq!(array_items(&image), [4, 4, 8, 8, 16, 16, 32, 32]);
}

#[test]
fn arrays_have_at_most_65536_items() {
    let image = full(&[40_000], false, 2_000_000);
    let fields = packed(&[b"A=1"]);
    let ask = Request {
        machine_id: [2; 16],
        ..request(&fields, u64::MAX, u64::MAX, 0)
    };
    let stores = plan(&image, &ask).expect("taken");
    let sizes: Vec<u64> = stores
        .iter()
        .map(|store| store.value)
        .filter(|&value| value == 24 + 8 * 65_536)
        .collect();
    assert_eq!(sizes.len(), 2);
}

#[test]
fn carrying_out() {
    let store = |offset: u64, value: u64| [offset.to_le_bytes(), value.to_le_bytes()].concat();
    let mut image = vec![0; 20];
    let list = [
        store(0, 1),
        store(8, u64::MAX),
        store(16, 5),
        store(4, 6),
        vec![9; 15],
    ]
    .concat();
    assert_eq!(carry_out(&mut image, &list, 3), 21);
    assert_eq!(carry_out(&mut image, &list, 4), 21);
    assert_eq!(carry_out(&mut image, &list, 5), 21);
    assert_eq!(carry_out(&mut image, &list, u64::MAX), 21);
    assert_eq!(image, [0; 20]);
    assert_eq!(carry_out(&mut image, &list, 2), 0);
    assert_eq!(image[..8], 1u64.to_le_bytes());
    assert_eq!(
        image[8..],
        [255, 255, 255, 255, 255, 255, 255, 255, 0, 0, 0, 0]
    );
    assert_eq!(carry_out(&mut [], &[], 0), 0);
    assert_eq!(carry_out(&mut image, &store(u64::MAX - 7, 1), 1), 21);
}
