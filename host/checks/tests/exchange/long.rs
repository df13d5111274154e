//! Images and texts of great length: an entry is exported by a thread with the stack that Rust gives, a
//! text is written and read with next to none.
use super::asking::SOME;
use super::forms::{entry, with_stamps};
use checks::generator::draft::{Array, Data, Draft, Entry, Field, Item, Part};
use checks::generator::full::full_in;
use checks::generator::render::render;
use checks::generator::texts::{counted, line, saying};
use checks::random::Random;
use reading::exchange::{self, exported};
use reading::import::{self, import, Imported};
use reading::layout::{Layout, MOST_BYTES};
use reading::lookup::open;
use reading::request::packed;
use wrapper::raw;

/// What a thread has that is spawned without further ado.
const STACK: usize = 2 << 20;
/// What a thread can hardly do without.
const LITTLE: usize = 64 << 10;

/// Makes a call in a thread with so much stack.
fn within<T: Send + 'static>(stack: usize, call: impl FnOnce() -> T + Send + 'static) -> T {
    let thread = std::thread::Builder::new().stack_size(stack);
    let thread = thread.spawn(call).expect("a thread");
    thread.join().expect("the call ends well")
}

/// Exports an entry: the answer and the text are the reading's.
fn written(image: &[u8], offset: u64) -> u64 {
    assert!(7_000_000 < image.len() && image.len() as u64 <= MOST_BYTES);
    let lent = image.to_vec();
    let (is, text) = within(STACK, move || {
        let mut text = vec![0; 300_000];
        (raw::export(&lent, offset, &mut text), text)
    });
    let mut should = vec![0; 300_000];
    let expected = exported(image, offset);
    let expected = expected.map(|text| text.expect("it is committed"));
    let expected = exchange::write(expected.as_deref().map_err(|it| *it), &mut should);
    assert_eq!((is.refusal, is.len), (expected.refusal, expected.len));
    assert!(text == should, "another text");
    is.refusal
}

/// 20,000 entries of one DATA: the first, the last and one between.
#[test]
fn many_entries() {
    for layout in Layout::BOTH {
        let image = full_in(layout, 264, &[15_000, 5_000], true, 5_900_000);
        let committed = open(&image).expect("it opens").committed;
        for place in [0, 14_999, 15_000, 19_999] {
            assert_eq!(written(&image, committed[place]), 0);
        }
    }
}

/// One entry of 64,000 payloads, 50 of each name, of which so many are not set apart, the last ones.
fn many_items(others: usize) -> (Vec<u8>, u64) {
    let count = 64_000;
    let name = |n: usize| match n + others < count {
        true => format!("__{}", n / 50),
        false => format!("B{}", n / 50),
    };
    let mut names: Vec<String> = (0..count).map(name).collect();
    names.dedup();
    let entry = count + names.len();
    let data = |n: usize| {
        Part::Data(Data {
            payload: format!("{}={n:05}", name(n)).into_bytes(),
            chained: Some(0),
            listed: true,
            entry_offset: Item::Entry(entry),
            entry_array: None,
            n_entries: 1,
        })
    };
    let mut parts: Vec<Part> = (0..count).map(data).collect();
    parts.extend(names.into_iter().map(|name| {
        Part::Field(Field {
            name: name.into_bytes(),
            chained: Some(0),
            heads: true,
        })
    }));
    parts.push(Part::Entry(Entry {
        seqnum: 1,
        realtime: 1,
        monotonic: 1,
        boot_id: [7; 16],
        items: (0..count).collect(),
    }));
    parts.push(Part::Array(Array {
        next: None,
        items: vec![Item::Entry(entry)],
    }));
    let draft = Draft {
        data_cells: 60_000,
        field_cells: 1_000,
        keyed: true,
        committed: vec![entry],
        entry_array: Some(entry + 1),
        ..Draft::of(parts)
    };
    let made = render(&draft, &mut Random::new(1));
    (made.image, made.offsets[entry])
}

#[test]
fn items() {
    for (others, refusal) in [(0, 16), (1, 0), (64, 0), (65, 16), (60_000, 16)] {
        let (image, entry) = many_items(others);
        assert_eq!(written(&image, entry), refusal, "{others}");
    }
}

/// Reads a text, with room for anything: the answer and the fields are the reading's.
fn read(text: Vec<u8>) -> u64 {
    let mut should = vec![0; 300_000];
    let expected = import::write(&import(&text), &mut should);
    let (is, fields) = within(LITTLE, move || {
        let mut fields = vec![0; 300_000];
        (raw::import(&text, &mut fields), fields)
    });
    let is = Imported {
        refusal: is.refusal,
        realtime: is.realtime,
        monotonic: is.monotonic,
        boot_low: is.boot_low,
        boot_high: is.boot_high,
        len: is.len,
    };
    assert_eq!(is, expected);
    assert!(fields == should, "other fields");
    is.refusal
}

#[test]
fn texts() {
    let long = vec![b'\n'; 16 << 20];
    let few = [line(b"A", b"1"), counted(b"__X", &long), line(b"B", b"2")];
    assert_eq!(import(&with_stamps(&few)), Ok(entry(&[b"A=1", b"B=2"])));
    assert_eq!(read(with_stamps(&few)), 0);
    assert_eq!(read(with_stamps(&[counted(b"A", &long)])), 16);
    assert_eq!(read(with_stamps(&[counted(&[b'A'; 1 << 20], b"1")])), 16);
    assert_eq!(read(with_stamps(&[line(b"A", &vec![b'='; 1 << 24])])), 16);
    let off = [saying(b"__X", (1 << 24) + 1, &long), line(b"B", b"2")];
    assert_eq!(read(with_stamps(&off)), 23);
    // A million fields: passed over, or too many.
    let mut many = vec![line(b"__X", b"1"); 500_000];
    many.extend(vec![counted(b"__Y", b""); 500_000]);
    many.push(line(b"A", b"1"));
    assert_eq!(read(with_stamps(&many)), 0);
    assert_eq!(read(with_stamps(&vec![line(b"A", b"1"); 1_000_000])), 16);
    assert_eq!(read(with_stamps(&vec![line(b"", b"1"); 1_000_000])), 16);
}

/// Buffers of a million payloads that are set apart, and of 64 long ones.
#[test]
fn buffers() {
    let apart = packed(&vec![&b"__X=1"[..]; 1_000_000]);
    let one = packed(&[b"A=1"]);
    let long = packed(&vec![&[b"A=", &vec![0xff; 4_094][..]].concat()[..]; 64]);
    for (fields, refusal) in [
        (apart.clone(), 16),
        ([&apart[..], &one].concat(), 0),
        ([&apart[..], &long, &apart].concat(), 0),
        ([&apart[..], &long, &one].concat(), 16),
        (packed(&vec![&b"A=1"[..]; 1_000_000]), 16),
    ] {
        let mut should = vec![0; 300_000];
        let expected = exchange::text(&SOME, &fields).map_err(|found| found[0].number);
        let expected = exchange::write(expected.as_deref().map_err(|it| *it), &mut should);
        let (is, text) = within(LITTLE, move || {
            let mut text = vec![0; 300_000];
            let is = raw::text(
                SOME.realtime,
                SOME.monotonic,
                &SOME.boot_id,
                &fields,
                &mut text,
            );
            (is, text)
        });
        assert_eq!((is.refusal, is.len), (expected.refusal, expected.len));
        assert_eq!(is.refusal, refusal);
        assert!(text == should, "another text");
    }
}
