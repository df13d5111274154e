//! Files whose entries hold given payloads, whatever an append would say of them.
use super::draft::{Array, Data, Draft, Entry, Field, Item, Part};
use super::faulty::sample::Form;
use super::render::render;
use crate::random::Random;
use reading::exchange::Stamps;
use reading::image::name_of;
use reading::request::distinct;

/// The stamps of an entry and its payloads.
pub type Held = (Stamps, Vec<Vec<u8>>);

/// A file with these entries, numbered from 1 on. Each payload has a name; of one that comes twice in an entry
/// there is one item, and those that entries share stand where they first came.
pub fn holding((layout, header_size, keyed): Form, entries: &[Held]) -> Vec<u8> {
    let all = entries.iter().flat_map(|(_, payloads)| payloads);
    let all: Vec<&[u8]> = all.map(|payload| &payload[..]).collect();
    let payloads = distinct(&all);
    let named = payloads.iter().map(|payload| name_of(payload));
    let names: Vec<&[u8]> = named.map(|name| name.expect("it has a name")).collect();
    let names = distinct(&names);

    // The DATA, the FIELDs, the ENTRYs, the header's array, and those of the DATA.
    let first = payloads.len() + names.len();
    let numbers: Vec<usize> = (first..first + entries.len()).collect();
    let array = |entries: &[usize]| {
        Part::Array(Array {
            next: None,
            items: entries.iter().map(|&it| Item::Entry(it)).collect(),
        })
    };
    let mut behind = vec![array(&numbers)];
    let mut parts = Vec::new();
    for payload in &payloads {
        let holds = |&&number: &&usize| entries[number - first].1.iter().any(|it| it == payload);
        let holders: Vec<usize> = numbers.iter().filter(holds).copied().collect();
        let entry_array = (holders.len() > 1).then(|| {
            behind.push(array(&holders[1..]));
            first + entries.len() + behind.len() - 1
        });
        parts.push(Part::Data(Data {
            payload: payload.to_vec(),
            chained: Some(0),
            listed: true,
            entry_offset: Item::Entry(holders[0]),
            entry_array,
            n_entries: holders.len() as u64,
        }));
    }
    parts.extend(names.iter().map(|name| {
        Part::Field(Field {
            name: name.to_vec(),
            chained: Some(0),
            heads: true,
        })
    }));
    for ((stamps, held), seqnum) in entries.iter().zip(1..) {
        let is_held = |&data: &usize| held.iter().any(|it| it == payloads[data]);
        parts.push(Part::Entry(Entry {
            seqnum,
            realtime: stamps.realtime,
            monotonic: stamps.monotonic,
            boot_id: stamps.boot_id,
            items: (0..payloads.len()).filter(is_held).collect(),
        }));
    }
    parts.extend(behind);
    let draft = Draft {
        layout,
        header_size,
        keyed,
        data_cells: 7,
        field_cells: 3,
        committed: numbers,
        entry_array: Some(first + entries.len()),
        noise: true,
        ..Draft::of(parts)
    };
    render(&draft, &mut Random::new(1)).image
}
