//! Images of nearly the greatest length, most with a fault at their end, asked by a thread with the stack
//! that Rust gives.
use checks::against::why::answer;
use checks::generator::draft::{Data, Draft, Entry, Field, Item, Part};
use checks::generator::frame::{frame, set};
use checks::generator::full::full_in;
use checks::generator::render::render;
use checks::generator::rendered::Rendered;
use checks::random::Random;
use reading::image::{arena_end, first_object, le64, Image};
use reading::layout::{array, data, entry, field, header, kind, Layout, MOST_BYTES};
use reading::why::{why, Why};
use std::time::{Duration, Instant};

/// What a thread has that is spawned without further ado.
const STACK: usize = 2 << 20;

/// The archive's answer in such a thread, and how long it took; it is what the reading says.
fn asked(image: &[u8]) -> (Why, Duration) {
    let lent = image.to_vec();
    let thread = std::thread::Builder::new().stack_size(STACK);
    let call = move || {
        let start = Instant::now();
        (answer(&lent), start.elapsed())
    };
    let thread = thread.spawn(call).expect("a thread");
    let (is, time) = thread.join().expect("the call ends well");
    assert_eq!(is, why(image));
    (is, time)
}

/// Asks of an image with a word changed: the number and the place.
fn damaged(image: &[u8], at: u64, value: u64, refusal: u64, place: u64) {
    let mut image = image.to_vec();
    set(&mut image, at, value);
    let (is, time) = asked(&image);
    println!("{refusal} at {place}: {} ms", time.as_millis());
    assert_eq!((is.refusal, is.place), (refusal, place));
}

fn opens(image: &[u8]) {
    assert!(7_000_000 < image.len() && image.len() as u64 <= MOST_BYTES);
    let (is, time) = asked(image);
    println!("{} bytes open: {} ms", image.len(), time.as_millis());
    assert_eq!(is, Why::default());
}

/// 20,000 entries of one DATA.
#[test]
fn many_entries() {
    for layout in Layout::BOTH {
        let image = full_in(layout, 264, &[15_000, 5_000], true, 5_900_000);
        opens(&image);
        let walked = Image::walked(&image);
        let last = walked.objects[walked.objects.len() - 1].offset;
        let held = walked.of_kind(kind::DATA)[0].offset;
        let arrays = walked.of_kind(kind::ENTRY_ARRAY);
        damaged(&image, last + entry::XOR_HASH, 0, 11, last);
        damaged(&image, held + data::HASH, 5, 11, held);
        damaged(&image, held + data::N_ENTRIES, 19_999, 10, held);
        damaged(&image, last + entry::SEQNUM, 19_999, 9, 19_999);
        damaged(&image, header::N_ENTRIES, 20_001, 9, 20_000);
        damaged(&image, header::N_ENTRIES, u64::MAX, 9, 20_000);
        for array in arrays {
            let next = array.offset + array::NEXT_ENTRY_ARRAY_OFFSET;
            damaged(&image, next, array.offset, 8, array.offset);
        }
        damaged(&image, last + 8, 0, 6, last);
        damaged(&image, header::TAIL_OBJECT_OFFSET, last + 8, 6, last);
        let arena_size = last + 8 - first_object(&image);
        damaged(&image, header::ARENA_SIZE, arena_size, 6, last);
    }
}

/// A file full of such parts, with many cells, so that chains are short.
fn full_of(parts: Vec<Part>) -> Rendered {
    let draft = Draft {
        data_cells: 60_000,
        field_cells: 20_000,
        keyed: true,
        ..Draft::of(parts)
    };
    render(&draft, &mut Random::new(1))
}

#[test]
fn many_data() {
    let data = |n: u64| {
        Part::Data(Data {
            payload: format!("A={n:06}").into_bytes(),
            chained: Some(0),
            listed: true,
            entry_offset: Item::Raw(0),
            entry_array: None,
            n_entries: 0,
        })
    };
    let mut parts: Vec<Part> = (0..97_000).map(data).collect();
    parts.push(Part::Field(Field {
        name: b"A".to_vec(),
        chained: Some(0),
        heads: true,
    }));
    let made = full_of(parts);
    opens(&made.image);
    let [first, mid, last] = [0, 50_000, 96_999].map(|part| made.offsets[part]);
    damaged(&made.image, last + data::HASH, 1, 11, last);
    // With another name of the FIELD all in its list are at fault; the first of them is met last.
    damaged(&made.image, made.tail + field::NAME, 0x42, 11, first);
    damaged(&made.image, last + data::N_ENTRIES, 1, 10, last);
    damaged(&made.image, last + data::NEXT_FIELD_OFFSET, last, 8, last);
    damaged(&made.image, mid + data::ENTRY_OFFSET, first, 8, mid);
    damaged(&made.image, last, 0, 6, last);
    // The payload of another in its place: its own hash is wrong, and its cell.
    let payload = |at: u64| le64(&made.image, at + 64);
    damaged(&made.image, last + 64, payload(first), 11, last);
    damaged(&made.image, mid + 64, payload(last), 11, mid);
}

#[test]
fn many_fields() {
    let field = |n: u64| {
        Part::Field(Field {
            name: format!("{n:08}").into_bytes(),
            chained: Some(0),
            heads: true,
        })
    };
    let made = full_of((0..145_000).map(field).collect());
    opens(&made.image);
    let last = made.tail;
    damaged(&made.image, last + field::HASH, 1, 11, last);
    damaged(&made.image, last + field::HEAD_DATA_OFFSET, last, 8, last);
    damaged(&made.image, last + 8, 40, 6, last);
    let name = le64(&made.image, made.offsets[0] + field::NAME);
    damaged(&made.image, last + field::NAME, name, 11, last);
}

/// One ENTRY of 90,000 items, not committed, and the DATA behind it.
#[test]
fn many_items() {
    let count = 90_000;
    let data = |n: usize| {
        Part::Data(Data {
            payload: format!("{n:05}=").into_bytes(),
            chained: None,
            listed: false,
            entry_offset: Item::Raw(0),
            entry_array: None,
            n_entries: 0,
        })
    };
    let mut parts = vec![Part::Entry(Entry {
        seqnum: 1,
        realtime: 1,
        monotonic: 1,
        boot_id: [0; 16],
        items: (1..=count).collect(),
    })];
    parts.extend((1..=count).map(data));
    let draft = Draft {
        keyed: true,
        ..Draft::of(parts)
    };
    let made = render(&draft, &mut Random::new(1));
    opens(&made.image);
    let (first, last) = (made.offsets[0], made.tail);
    let item = first + entry::ITEMS + 16 * (count as u64 - 1);
    damaged(&made.image, item + 8, 1, 11, first);
    damaged(&made.image, first + entry::XOR_HASH, 1, 11, first);
    damaged(&made.image, last + data::HASH, 1, 11, last);
    damaged(&made.image, item, first, 8, first);
    damaged(&made.image, item, made.offsets[1], 8, first);
}

/// The smallest objects that there are, as many as fit.
#[test]
fn many_objects() {
    let count = (MOST_BYTES as usize - 320) / 16;
    let image = frame(&vec![(8, 16); count]);
    opens(&image);
    let end = arena_end(&image) as u64;
    let last = end - 16;
    damaged(&image, header::TAIL_OBJECT_OFFSET, end, 6, last);
    damaged(&image, header::TAIL_OBJECT_OFFSET, u64::MAX, 6, last);
    damaged(&image, header::TAIL_OBJECT_OFFSET, last + 8, 6, last);
    damaged(&image, header::ARENA_SIZE, last + 8 - 256, 6, last);
    damaged(&image, last, 0, 6, last);
    damaged(&image, 256 + 16, last, 8, 256);
    damaged(&image, header::N_ENTRIES, 1, 9, 0);
    damaged(&image, header::ENTRY_ARRAY_OFFSET, last, 8, 0);
}
