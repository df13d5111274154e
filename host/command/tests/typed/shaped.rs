//! Files whose entries are of one shape: made and appended to by the library, 32 entries at a time.
use reading::batch::packed;
use reading::image::Image;
use reading::layout::{header, kind};
use reading::request::{self, Request};
use wrapper::{carry_out, new, stores_batch, RefusedBatch};

pub const MACHINE: [u8; 16] = [2; 16];

/// A field as it is typed for `room`: NAME, BYTES, and VALUES if not each entry has a new one.
pub type Field<'a> = (&'a str, usize, Option<u64>);

pub fn word(&(name, bytes, values): &Field) -> String {
    let values = values.map_or(String::new(), |values| format!("/{values}"));
    format!("{name}={bytes}{values}")
}

/// The payload of an entry, by its place from 0: the values come in turn, each the number of its turn.
fn payload(&(name, bytes, values): &Field, place: u64) -> Vec<u8> {
    let turn = values.map_or(place, |values| place % values);
    let mut value = vec![0; bytes];
    let digits = bytes.min(8);
    value[..digits].copy_from_slice(&turn.to_le_bytes()[..digits]);
    [name.as_bytes(), b"=", &value].concat()
}

pub struct Shaped<'a> {
    pub image: Vec<u8>,
    fields: &'a [Field<'a>],
    pub entries: u64,
}

/// What a file has of something: objects, their bytes, and the items that they have room for.
pub type Part = (u64, u64, u64);

impl Shaped<'_> {
    pub fn new<'a>(
        size: usize,
        cells: [u64; 2],
        header_size: u64,
        fields: &'a [Field],
    ) -> Shaped<'a> {
        let ids = [[1; 16], MACHINE, [3; 16], [4; 16]].concat();
        let ids = ids[..].try_into().expect("64 bytes");
        let mut image = vec![0; size];
        let made = new(&mut image, ids, cells[0], cells[1], true, header_size);
        assert_eq!(made, Ok(()));
        Shaped {
            image,
            fields,
            entries: 0,
        }
    }

    /// Appends up to so many entries.
    pub fn grow(&mut self, entries: u64) {
        while self.entries < entries {
            let count = (entries - self.entries).min(32);
            self.batch(count).expect("there is room");
        }
    }

    /// Appends so many entries at once, or is refused.
    pub fn batch(&mut self, count: u64) -> Result<(), RefusedBatch> {
        let pack = |place: u64| {
            let payloads = self.fields.iter().map(|field| payload(field, place));
            let payloads: Vec<Vec<u8>> = payloads.collect();
            request::packed(&Vec::from_iter(payloads.iter().map(|it| &it[..])))
        };
        let places = self.entries..self.entries + count;
        let packs: Vec<Vec<u8>> = places.clone().map(pack).collect();
        let asked = packs.iter().zip(places).map(|(fields, place)| Request {
            machine_id: MACHINE,
            boot_id: [5; 16],
            seqnum: place + 1,
            realtime: place,
            monotonic: place,
            fields,
        });
        let entries = packed(&Vec::from_iter(asked));
        let list = stores_batch(&self.image, &MACHINE, &entries)?;
        assert_eq!(
            carry_out(&mut self.image, &list, list.len() as u64 / 16),
            Ok(())
        );
        self.entries += count;
        Ok(())
    }

    /// Where the objects end.
    pub fn end(&self) -> u64 {
        let image = Image::walked(&self.image);
        image.objects[image.objects.len() - 1].next() as u64
    }

    /// DATA, FIELD, ENTRY, global arrays and arrays of DATA, by the objects that stand in the file.
    pub fn parts(&self) -> [Part; 5] {
        let image = Image::walked(&self.image);
        let [data, field, entry, arrays] =
            [kind::DATA, kind::FIELD, kind::ENTRY, kind::ENTRY_ARRAY].map(|it| image.of_kind(it));
        let first = image.word(header::ENTRY_ARRAY_OFFSET);
        let global = image.arrays(first);
        let others = arrays.into_iter().filter(|it| !global.contains(it));
        let others: Vec<_> = others.collect();
        [data, field, entry, global, others].map(|objects| {
            let bytes = objects.iter().map(|it| it.next() as u64 - it.offset);
            let arrays = objects.iter().filter(|it| it.kind == kind::ENTRY_ARRAY);
            let room = arrays.map(|it| image.room(it)).sum();
            (objects.len() as u64, bytes.sum(), room)
        })
    }
}
