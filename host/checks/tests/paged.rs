//! What the wrapper makes of the calls: entries and streams page by page, packed fields, whole lists of
//! stores.
use checks::corpus;
use checks::generator::any::any;
use checks::generator::draft::{numbered, Array, Data, Draft, Field, Item, Part};
use checks::generator::pairs::pair;
use checks::generator::render::render;
use checks::random::Random;
use reading::layout::Layout;
use wrapper::{carry_out, entries, new, page_entries, plan, stores, stream};
use wrapper::{Entries, Fields, Page, Planned, Refusal, Request, Stream};

/// Pages that hold nothing, a record or some, and all.
const PAGES: [usize; 6] = [0, 1, 150, 400, 3_000, 1 << 16];

#[test]
fn all_entries() {
    let mut many = 0;
    for seed in 0..120 {
        let image = any(&mut Random::new(seed + 90_000));
        let all = wrapper::all_entries(&image);
        match entries(&image) {
            Ok(entries) => assert_eq!(Ok(entries.collect()), all),
            Err(refusal) => assert_eq!(Err(refusal), all),
        }
        let Ok(all) = all else {
            let refusal = Entries::new(&image, 1, 0).expect_err("it is refused");
            assert_eq!(wrapper::open(&image), Err(refusal));
            continue;
        };
        many += all.len();
        for (place, page) in (0..all.len() + 2).zip(PAGES.into_iter().cycle()) {
            let some = Entries::new(&image, place as u64, page).expect("it opens");
            let rest = all.get(place..).unwrap_or_default();
            assert!(some.eq(rest.iter().cloned()), "{place} {page}");
        }
        let mut none = Entries::new(&image, u64::MAX, 0).expect("it opens");
        assert_eq!((none.next(), none.next()), (None, None));
    }
    assert!(many > 100);
}

#[test]
fn all_of_a_stream() {
    let mut many = 0;
    for seed in 0..30 {
        let random = &mut Random::new(seed + 91_000);
        let [first, second] = pair(random);
        let all = wrapper::all_merged(&first, &second).expect("both open");
        assert!(stream(&first, &second).expect("both open").eq(all.clone()));
        many += all.len();
        // From where the stream stands after some steps, the rest of it.
        let mut places = [0, 0];
        for (shown, page) in (0..=all.len()).zip(PAGES.into_iter().cycle()) {
            let rest = Stream::new([&first, &second], places, page).expect("both open");
            assert!(rest.eq(all[shown..].iter().cloned()), "{places:?} {page}");
            let [at_first, at_second] = places;
            let step = wrapper::merged(&first, &second, at_first, at_second);
            if let Some(step) = step.expect("both open") {
                places = [step.next_first, step.next_second];
            }
        }
    }
    assert!(many > 100);
    let (good, bad) = (corpus::image("bullseye-k0-c0-system"), corpus::compressed());
    for (first, second) in [(&good, &bad), (&bad, &good)] {
        let refused = stream(first, second).expect_err("one is refused");
        assert_eq!(wrapper::all_merged(first, second), Err(refused));
    }
}

/// In a compact file a record may be longer than its ENTRY: here all of them are three times as long as
/// the image, and four times are always enough.
#[test]
fn records_longer_than_the_image() {
    let image = many_items(300, 64);
    let all = wrapper::all_entries(&image).expect("it opens");
    assert_eq!(all.len(), 300);
    assert!(all.iter().all(|entry| entry.payloads.len() == 64));
    let records = 300 * (56 + 16 * 64);
    assert!(records > 3 * image.len() && records < 4 * image.len());
    let page = |length: usize| page_entries(&image, 0, &mut vec![0; length]).expect("it opens");
    assert_eq!(
        page(records),
        Page {
            count: 300,
            next: 0
        }
    );
    assert_eq!(page(image.len()).next, 1_080);
    assert!(entries(&image).expect("it opens").eq(all.clone()));
    assert_eq!(wrapper::all_matches(&image, b"A=7"), Ok(all.clone()));
    assert_eq!(
        wrapper::all_values(&image, b"A").map(|all| all.len()),
        Ok(64)
    );
    // Equal entries are shown once.
    let merged = wrapper::all_merged(&image, &image).expect("both open");
    assert!(merged.into_iter().map(|(_, entry)| entry).eq(all));
}

/// A compact file of so many entries, each of which holds all of so many payloads. The DATA have one
/// list, which opening lets them share.
fn many_items(entries: usize, items: usize) -> Vec<u8> {
    let first = items + 3;
    let mut parts: Vec<Part> = (0..items)
        .map(|n| {
            Part::Data(Data {
                payload: format!("A={n}").into_bytes(),
                chained: Some(0),
                listed: true,
                entry_offset: Item::Entry(first),
                entry_array: Some(items + 2),
                n_entries: entries as u64,
            })
        })
        .collect();
    parts.push(Part::Field(Field {
        name: b"A".to_vec(),
        chained: Some(0),
        heads: true,
    }));
    for skipped in [0, 1] {
        parts.push(Part::Array(Array {
            next: None,
            items: (first + skipped..first + entries)
                .map(Item::Entry)
                .collect(),
        }));
    }
    let all: Vec<usize> = (0..items).collect();
    parts.extend(numbered(entries, [5; 16], &all));
    let draft = Draft {
        layout: Layout::Compact,
        data_cells: 64,
        committed: (first..first + entries).collect(),
        entry_array: Some(items + 1),
        ..Draft::of(parts)
    };
    render(&draft, &mut Random::new(1)).image
}

/// An append of so many fields of so many bytes to a new file.
fn asked<T>(count: usize, len: usize, with: impl Fn(&mut [u8], &Request) -> T) -> T {
    let mut image = vec![0; 1 << 20];
    new(&mut image, &[7; 64], 64, 8, true, 256).expect("it is made");
    let mut fields = Fields::new();
    for place in 0..count {
        let name = format!("F{place}");
        let value = "v".repeat(len - name.len() - 1);
        fields.add(name, value).expect("a field");
    }
    let request = Request {
        machine: &[7; 16],
        boot: &[7; 16],
        seqnum: 1,
        realtime: 1,
        monotonic: 1,
        fields: fields.packed(),
    };
    with(&mut image, &request)
}

/// The list is that of a plan with room for it, also where it is longer than most, and shows the fields.
#[test]
fn lists() {
    for (count, len) in [(1, 9), (3, 40), (64, 4_096)] {
        asked(count, len, |image, request| {
            let list = stores(image, request).expect("it is taken");
            let mut room = vec![0; 16 * 65_536];
            let planned = plan(image, request, &mut room);
            let need = list.len() as u64 / 16;
            assert_eq!(planned, Planned::Stores { count: need });
            assert!(list == room[..list.len()]);
            assert_eq!(need > 4_096, count == 64);
            carry_out(image, &list, need).expect("it is carried out");
            let entry = entries(image).expect("it opens").next().expect("an entry");
            assert_eq!(entry.payloads.len(), count);
            assert!(entry.payloads.iter().all(|payload| payload.len() == len));
        });
    }
    for (count, len) in [(0, 9), (65, 9), (1, 4_097)] {
        let refused = asked(count, len, |image, request| stores(image, request));
        assert_eq!(refused.map_err(Refusal::number), Err(16));
    }
}
