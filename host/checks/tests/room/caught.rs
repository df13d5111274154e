//! The look can fail: files as another growth would make them, and arrays that are out of place.
use checks::generator::foreign::put;
use checks::generator::frame::set;
use reading::carry::{list, stores};
use reading::image::{le64, Image, Object};
use reading::layout::{array, data, header, kind, Layout};
use reading::request::packed;
use wrapper::carry_out;

use crate::file::{request, File};
use crate::look::{look, Fault, Of};
use crate::seen::Seen;

/// A file with so many entries, which all have these fields.
fn grown(layout: Layout, entries: u64, fields: &[u8]) -> Vec<u8> {
    let mut seen = Seen::default();
    let mut file = File::new((layout, 272, true), 8_192, 1, &mut seen);
    while file.entries < entries {
        assert_eq!(file.append(fields), 0);
    }
    file.image
}

fn faults(image: &[u8]) -> Vec<Fault> {
    look(image).expect_err("something is the matter")
}

/// The offsets of the DATA.
fn offsets(image: &[u8]) -> Vec<u64> {
    let data = Image::walked(image).of_kind(kind::DATA);
    data.iter().map(|object| object.offset).collect()
}

/// An append with this number, whose last new array is made twice as long as planned.
fn longer(image: &mut [u8], layout: Layout, seqnum: u64, fields: &[u8]) {
    let planned = wrapper::stores(image, &request(fields, seqnum)).expect("taken");
    let mut planned = stores(&planned);
    let tail = planned
        .iter()
        .find(|store| store.offset == header::TAIL_OBJECT_OFFSET);
    let array = tail.expect("always stored").value;
    let size = planned.iter_mut().find(|store| store.offset == array + 8);
    let size = size.expect("it is new");
    size.value += layout.array_item() * ((size.value - array::ITEMS) / layout.array_item());
    let count = planned.len() as u64;
    assert_eq!(carry_out(image, &list(&planned), count), Ok(()));
    assert_eq!(Object::read(image, array).kind, kind::ENTRY_ARRAY);
}

/// Four times the array before, once in the header's chain and once in the DATA's: the file opens and takes
/// appends, and only the look tells.
#[test]
fn fourfold_growth() {
    let fields = &packed(&[b"A=1"]);
    for layout in Layout::BOTH {
        for (before, of_data) in [(4, false), (5, true)] {
            let mut image = grown(layout, before, fields);
            let of = match of_data {
                false => Of::Header,
                true => Of::Data(offsets(&image)[0]),
            };
            longer(&mut image, layout, before + 1, fields);
            let rooms = Fault::Rooms(of, vec![4, 16]);
            assert_eq!(
                faults(&image),
                [rooms.clone(), Fault::AboveTheBound(of, 20)]
            );
            // Later the bound has grown past it, and the arrays are still not those of the rule.
            for seqnum in before + 2..=10 {
                let list = wrapper::stores(&image, &request(fields, seqnum)).expect("taken");
                assert_eq!(carry_out(&mut image, &list, list.len() as u64 / 16), Ok(()));
            }
            assert!(faults(&image).starts_with(&[rooms]));
            assert!(!faults(&image).contains(&Fault::AboveTheBound(of, 20)));
        }
    }
}

/// An array that is made one entry too early.
#[test]
fn made_early() {
    let mut image = grown(Layout::Regular, 4, &packed(&[b"A=1"]));
    let first = le64(&image, header::ENTRY_ARRAY_OFFSET);
    let size = Layout::Regular.array_size(8);
    let early = put(&mut image, kind::ENTRY_ARRAY, size).expect("room");
    assert_eq!(faults(&image), [Fault::OnChains(early, 0)]);
    set(&mut image, first + array::NEXT_ENTRY_ARRAY_OFFSET, early);
    let of = Of::Header;
    assert_eq!(
        faults(&image),
        [Fault::Rooms(of, vec![4, 8]), Fault::AboveTheBound(of, 12)]
    );
}

/// One array for two DATA that the same entries hold, and the other one lost.
#[test]
fn on_two_chains() {
    let mut image = grown(Layout::Compact, 3, &packed(&[b"A=1", b"B=1"]));
    let [one, other] = offsets(&image)[..] else {
        panic!("two DATA");
    };
    let [shared, lost] = [one, other].map(|at| le64(&image, at + data::ENTRY_ARRAY_OFFSET));
    set(&mut image, other + data::ENTRY_ARRAY_OFFSET, shared);
    assert_eq!(
        faults(&image),
        [Fault::OnChains(shared, 2), Fault::OnChains(lost, 0)]
    );
}

/// Items that are missing, in another order or too many, and counts that are not theirs.
#[test]
fn other_items() {
    let image = grown(Layout::Regular, 3, &packed(&[b"A=1"]));
    let at = offsets(&image)[0];
    let global = le64(&image, header::ENTRY_ARRAY_OFFSET) + array::ITEMS;
    let listed = le64(&image, at + data::ENTRY_ARRAY_OFFSET) + array::ITEMS;
    let first = le64(&image, global);
    let (header, of_data) = (Of::Header, Of::Data(at));
    for (place, value, of) in [
        (global, 0, header),
        (global + 8, first, header),
        (global + 24, first, header),
        (header::N_ENTRIES, 4, header),
        (listed, first, of_data),
        (listed + 16, first, of_data),
        (at + data::N_ENTRIES, 2, of_data),
        (at + data::ENTRY_OFFSET, first + 8, of_data),
    ] {
        let mut image = image.clone();
        set(&mut image, place, value);
        assert_eq!(faults(&image), [Fault::Items(of)], "{place}");
    }
}
