//! The parts of a file that holds so many entries of one shape, counted and not made. The sizes are those
//! of a file that is not compact, since none that is made here is.
use crate::arrays::Arrays;
use crate::shape::Field;
use crate::sizes::Sizes;

pub struct Shape {
    /// At least one.
    pub entries: u64,
    /// Of each of them.
    pub fields: Vec<Field>,
    pub sizes: Sizes,
}

/// What a file is made of, and how much of it.
pub struct Part {
    pub what: &'static str,
    pub objects: u128,
    pub bytes: u128,
    /// Of arrays: the items that they have room for, and the most that these may be.
    pub room: Option<(u128, u128)>,
}

impl Part {
    fn objects(what: &'static str, objects: u128, bytes: u128) -> Part {
        Part {
            what,
            objects,
            bytes,
            room: None,
        }
    }

    fn arrays(what: &'static str, arrays: Arrays, most: u128) -> Part {
        Part {
            room: Some((arrays.room, most)),
            ..Part::objects(what, arrays.count, arrays.bytes())
        }
    }
}

pub fn sum(parts: &[Part]) -> Part {
    let objects = parts.iter().map(|part| part.objects).sum();
    let bytes = parts.iter().map(|part| part.bytes).sum();
    Part::objects("sum", objects, bytes)
}

/// The bytes of objects without their payload, name or items, and of an ENTRY's item.
const DATA: u64 = 64;
const FIELD: u64 = 40;
const ENTRY: u64 = 64;
const ITEM: u64 = 16;

/// The bytes of an object up to the next one.
fn rounded(size: u64) -> u128 {
    u128::from(size.next_multiple_of(8))
}

impl Shape {
    /// The parts of a file with so many of the entries, at least one.
    pub fn parts(&self, entries: u64) -> Vec<Part> {
        let tables = u128::from(self.sizes.without_entries());
        let values = |field: &Field| u128::from(field.values(entries));
        let data = |field: &Field| values(field) * rounded(DATA + field.payload());
        let name = |field: &Field| rounded(FIELD + field.name.len() as u64);
        let fields = self.fields.len() as u64;
        let lists = self.lists(entries);
        let arrays = lists
            .iter()
            .map(|list| Arrays::of(u128::from(list.held) - 1) * list.data);
        let most = lists.iter().map(List::most);
        let of_fields = self.fields.iter();
        let entries = u128::from(entries);
        vec![
            Part::objects("header and tables", 2, tables),
            Part::objects(
                "DATA",
                of_fields.clone().map(values).sum(),
                of_fields.clone().map(data).sum(),
            ),
            Part::objects("FIELD", u128::from(fields), of_fields.map(name).sum()),
            Part::objects("ENTRY", entries, entries * rounded(ENTRY + ITEM * fields)),
            Part::arrays("global arrays", Arrays::of(entries), 2 * entries + 2),
            Part::arrays("arrays of DATA", arrays.sum(), most.sum()),
        ]
    }

    /// The DATA by how many entries hold them: where values come in turn, those that come first may be held
    /// once more than the others of their field.
    fn lists(&self, entries: u64) -> Vec<List> {
        let of_field = |field: &Field| {
            let values = field.values(entries);
            let (held, more) = (entries / values, entries % values);
            let once_more = (more > 0).then(|| List {
                data: more,
                held: held + 1,
            });
            let others = List {
                data: values - more,
                held,
            };
            once_more.into_iter().chain([others])
        };
        self.fields.iter().flat_map(of_field).collect()
    }

    pub fn fits(&self, sum: &Part) -> bool {
        sum.bytes <= u128::from(self.sizes.size)
    }

    /// How many of the entries the file has room for, if not for all of them.
    pub fn fitting(&self) -> u64 {
        let (mut fit, mut do_not) = (0, self.entries);
        while do_not - fit > 1 {
            let middle = fit + (do_not - fit) / 2;
            match self.fits(&sum(&self.parts(middle))) {
                true => fit = middle,
                false => do_not = middle,
            }
        }
        fit
    }
}

/// So many DATA that so many entries hold, at least one.
struct List {
    data: u64,
    held: u64,
}

impl List {
    /// The most that their arrays may have room for. The first entry is inline, and one alone has no array.
    fn most(&self) -> u128 {
        match self.held {
            1 => 0,
            held => 2 * u128::from(held) * u128::from(self.data),
        }
    }
}
