//! Arrays: "First array 4 items, a later one twice the one before, at most 65,536."
use checks::against::plan::Append;
use checks::generator::frame::set;
use checks::generator::full::full_in;
use checks::generator::worked::request;
use reading::image::{le64, Image};
use reading::layout::{array, header, kind, Layout};
use reading::request::{packed, Request};

use crate::made::{made, made_in, Tried};

/// The bytes of an array's item.
fn item(layout: Layout) -> u64 {
    match layout {
        Layout::Regular => 8,
        Layout::Compact => 4,
    }
}

fn array_items(image: &[u8]) -> Vec<u64> {
    let image = Image::walked(image);
    let arrays = image.of_kind(kind::ENTRY_ARRAY);
    let item = item(image.layout);
    arrays.iter().map(|it| (it.size - 24) / item).collect()
}

/// One payload over and over, then with others: each plan is compared before it is carried out.
#[test]
fn grown_by_appends() {
    let mut tried = Tried::default();
    for (layout, header_size, keyed) in [
        (Layout::Regular, 256, false),
        (Layout::Regular, 256, true),
        (Layout::Regular, 272, true),
        (Layout::Compact, 272, true),
    ] {
        let mut image = made_in(layout, header_size, 65_536, (2, 1), keyed);
        for n in 1..=130 {
            let mut payloads = vec![b"PRIORITY=2".to_vec()];
            payloads.extend((n % 3 == 0).then(|| b"UNIT=a".to_vec()));
            payloads.extend((n % 7 == 0).then(|| format!("MESSAGE={n}").into_bytes()));
            let fields = crate::made::fields(&payloads);
            let ask = request(&fields, n, n, n);
            if n % 10 == 0 {
                assert_eq!(tried.append(&image, ask), 0);
            }
            tried.carried(&mut image, ask);
        }
        // The header's chain after 0, 4, 12, 28, 60 and 124 entries, the DATA's after one more; with
        // them those of the payload that every third entry has.
        let items = array_items(&image);
        for size in [4, 8, 16] {
            assert_eq!(items.iter().filter(|&&it| it == size).count(), 3);
        }
        for size in [64, 128] {
            assert_eq!(items.iter().filter(|&&it| it == size).count(), 2);
        }
    }
    tried.print("grown by appends");
}

/// The number of items of the two arrays that one more entry makes.
fn next_items(tried: &mut Tried, image: &[u8]) -> [u64; 2] {
    let fields = packed(&[b"A=1"]);
    let append = Append::new(image, request(&fields, u64::MAX, u64::MAX, 0));
    let need = append.need().expect("it is taken");
    let (number, list) = tried.with_list(&append, 16 * need);
    assert_eq!(number, 0);
    // The objects begin after the tail object: an ENTRY of one item, then the arrays.
    let image = Image::walked(image);
    let start = image.objects[image.objects.len() - 1].next() as u64;
    let value = |offset: u64| {
        let mut stores = list.chunks_exact(16);
        let found = stores.find(|store| le64(store, 0) == offset);
        le64(found.expect("a store"), 8)
    };
    let (entry, item) = match image.layout {
        Layout::Regular => (80, 8),
        Layout::Compact => (72, 4),
    };
    let first = value(start + entry + 8);
    let second = value(start + entry + first.next_multiple_of(8) + 8);
    [(first - 24) / item, (second - 24) / item]
}

/// Chains that doubled up to every size, and one array of a size around half of the greatest.
#[test]
fn sizes_up_to_the_greatest() {
    let mut tried = Tried::default();
    for last in 2..=15 {
        let arrays: Vec<usize> = (2..=last).map(|power| 1 << power).collect();
        let header_size = [256, 272][last / 2 % 2];
        for layout in Layout::BOTH {
            let image = full_in(layout, header_size, &arrays, last % 2 == 0, 1_200_000);
            // The last array of the DATA's chain has one item less.
            let size = 1u64 << last;
            assert_eq!(
                next_items(&mut tried, &image),
                [2 * size, 2 * (size - 1)],
                "after {size} items"
            );
        }
    }
    for (size, next) in [
        (32_767, [65_534, 65_532]),
        (32_768, [65_536, 65_534]),
        (32_769, [65_536, 65_536]),
        (40_000, [65_536, 65_536]),
        (65_536, [65_536, 65_536]),
        (65_537, [65_536, 65_536]),
    ] {
        for layout in Layout::BOTH {
            let image = full_in(layout, 272, &[size], false, 1_100_000);
            assert_eq!(next_items(&mut tried, &image), next, "after {size} items");
        }
    }
    tried.print("sizes up to the greatest");
}

/// Spare items that hold nothing, anything, or the coming ENTRY's offset already: the last is not
/// stored, in either chain.
#[test]
fn spare_items() {
    let mut tried = Tried::default();
    for keyed in [false, true] {
        let mut image = made(8192, (1, 1), keyed);
        let fields = packed(&[b"PRIORITY=2"]);
        let ask = |seqnum: u64| request(&fields, seqnum, 0, 0);
        for seqnum in 1..=2 {
            tried.carried(&mut image, ask(seqnum));
        }
        let words = Image::walked(&image);
        let coming = words.objects[words.objects.len() - 1].next() as u64;
        let arrays = words.of_kind(kind::ENTRY_ARRAY);
        // The header's array has two entries, the DATA's one.
        let global = arrays[0].offset + array::ITEMS + 8 * 2;
        let listed = arrays[1].offset + array::ITEMS + 8;
        let all = Append::new(&image, ask(3)).need().expect("taken");
        for one in [0, 1, coming, coming - 80, coming + 8, u64::MAX] {
            for other in [0, coming, 3] {
                let mut image = image.clone();
                set(&mut image, global, one);
                set(&mut image, listed, other);
                let append = Append::new(&image, ask(3));
                let same = usize::from(one == coming) + usize::from(other == coming);
                assert_eq!(append.need(), Some(all - same));
                assert_eq!(tried.whole(&append), 0);
            }
        }
    }
    tried.print("spare items");
}

/// Arrays chained ahead are used first; a chain that ends with them is doubled by its last.
#[test]
fn arrays_chained_ahead() {
    let mut tried = Tried::default();
    for layout in Layout::BOTH {
        let mut image = full_in(layout, 272, &[2, 1, 3], true, 4000);
        let fields = packed(&[b"A=1"]);
        let ask = |seqnum: u64| Request {
            boot_id: [0; 16],
            ..request(&fields, seqnum, seqnum, seqnum)
        };
        // The first append makes arrays of 6 and 4 items; six more fill the first.
        for seqnum in 7..=20 {
            assert_eq!(tried.append(&image, ask(seqnum)), 0);
            tried.carried(&mut image, ask(seqnum));
        }
        assert_eq!(le64(&image, header::N_ENTRIES), 20);
        assert_eq!(array_items(&image), [2, 1, 3, 2, 1, 2, 6, 4, 8, 12, 16]);
    }
}
