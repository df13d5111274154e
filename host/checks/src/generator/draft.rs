//! A journal file drawn up before its offsets are known: objects refer to one another by
//! their number in `parts`, and `order` says how they follow one another in the file.

use reading::layout::Layout;
use std::ops::Range;

#[derive(Clone)]
pub struct Draft {
    pub file_id: [u8; 16],
    pub machine_id: [u8; 16],
    pub boot_id: [u8; 16],
    pub seqnum_id: [u8; 16],
    pub compatible_flags: u32,
    /// One of the three; the objects start there.
    pub header_size: u64,
    pub layout: Layout,
    pub keyed: bool,
    pub state: u8,
    pub data_table_first: bool,
    pub data_cells: u64,
    pub field_cells: u64,
    pub parts: Vec<Part>,
    pub order: Vec<usize>,
    pub committed: Vec<usize>,
    pub entry_array: Option<usize>,
    /// Bytes after the tail object inside the arena, a multiple of 8.
    pub spare: u64,
    /// Bytes of the image after the arena.
    pub trailing: u64,
    /// Free bytes hold anything instead of 0.
    pub noise: bool,
    /// Counters, head and tail facts and cell tails hold anything instead of what is so.
    pub free_facts: bool,
    /// xor_hash taken with the keyed hash, a slip.
    pub keyed_xor: bool,
}

#[derive(Clone)]
pub enum Part {
    Data(Data),
    Field(Field),
    Entry(Entry),
    Array(Array),
    Tag,
    Foreign { kind: u8, size: u64 },
}

#[derive(Clone)]
pub struct Data {
    pub payload: Vec<u8>,
    /// On the chain of its cell, or of the cell that many cells further.
    pub chained: Option<u64>,
    /// On the list of its name's FIELDs.
    pub listed: bool,
    pub entry_offset: Item,
    pub entry_array: Option<usize>,
    pub n_entries: u64,
}

#[derive(Clone)]
pub struct Field {
    pub name: Vec<u8>,
    /// On the chain of its cell, or of the cell that many cells further.
    pub chained: Option<u64>,
    /// Whether head_data gives the list of its name.
    pub heads: bool,
}

#[derive(Clone)]
pub struct Entry {
    pub seqnum: u64,
    pub realtime: u64,
    pub monotonic: u64,
    pub boot_id: [u8; 16],
    /// The DATA, in any order.
    pub items: Vec<usize>,
}

/// An array whose items are those of a chain from a place on, by their place in it.
pub fn array_of(next: Option<usize>, places: Range<usize>, item: impl Fn(usize) -> Item) -> Part {
    Part::Array(Array {
        next,
        items: places.map(item).collect(),
    })
}

/// ENTRYs with the numbers from 1 on, which are their times too, of one boot and with the same DATA.
pub fn numbered(
    count: usize,
    boot_id: [u8; 16],
    items: &[usize],
) -> impl Iterator<Item = Part> + '_ {
    (1..=count as u64).map(move |n| {
        Part::Entry(Entry {
            seqnum: n,
            realtime: n,
            monotonic: n,
            boot_id,
            items: items.to_vec(),
        })
    })
}

#[derive(Clone)]
pub struct Array {
    pub next: Option<usize>,
    pub items: Vec<Item>,
}

/// A word, or in an array of a compact file half of one, that is to hold an ENTRY's offset.
#[derive(Clone, Copy, PartialEq, Eq, Debug)]
pub enum Item {
    Entry(usize),
    /// That far above the last committed offset (0 if none), or where the objects end.
    Above(u64),
    End,
    Raw(u64),
}

impl Draft {
    /// A file of these parts in their order, with fixed ids, no committed entry and nothing free.
    pub fn of(parts: Vec<Part>) -> Draft {
        Draft {
            file_id: [1; 16],
            machine_id: [2; 16],
            boot_id: [3; 16],
            seqnum_id: [4; 16],
            compatible_flags: 0,
            header_size: 256,
            layout: Layout::Regular,
            keyed: false,
            state: 0,
            data_table_first: true,
            data_cells: 2,
            field_cells: 2,
            order: (0..parts.len()).collect(),
            parts,
            committed: Vec::new(),
            entry_array: None,
            spare: 0,
            trailing: 0,
            noise: false,
            free_facts: false,
            keyed_xor: false,
        }
    }

    /// Where in the file a part stands among the others.
    pub fn position(&self, part: usize) -> usize {
        self.order
            .iter()
            .position(|&other| other == part)
            .expect("every part is in the order")
    }

    /// The parts that a test picks, by their order in the file.
    pub fn in_order(&self, test: impl Fn(&Part) -> bool) -> Vec<usize> {
        self.order
            .iter()
            .copied()
            .filter(|&part| test(&self.parts[part]))
            .collect()
    }

    pub fn data(&self, part: usize) -> &Data {
        match &self.parts[part] {
            Part::Data(data) => data,
            _ => panic!("no DATA"),
        }
    }

    pub fn data_mut(&mut self, part: usize) -> &mut Data {
        match &mut self.parts[part] {
            Part::Data(data) => data,
            _ => panic!("no DATA"),
        }
    }

    pub fn entry(&self, part: usize) -> &Entry {
        match &self.parts[part] {
            Part::Entry(entry) => entry,
            _ => panic!("no ENTRY"),
        }
    }

    pub fn entry_mut(&mut self, part: usize) -> &mut Entry {
        match &mut self.parts[part] {
            Part::Entry(entry) => entry,
            _ => panic!("no ENTRY"),
        }
    }

    pub fn array_mut(&mut self, part: usize) -> &mut Array {
        match &mut self.parts[part] {
            Part::Array(array) => array,
            _ => panic!("no ENTRY_ARRAY"),
        }
    }

    pub fn field_mut(&mut self, part: usize) -> &mut Field {
        match &mut self.parts[part] {
            Part::Field(field) => field,
            _ => panic!("no FIELD"),
        }
    }

    /// Adds a part somewhere in the file.
    pub fn add(&mut self, part: Part, position: usize) -> usize {
        self.parts.push(part);
        let number = self.parts.len() - 1;
        self.order.insert(position.min(self.order.len()), number);
        number
    }

    /// The committed entries that hold a DATA.
    pub fn holders(&self, data: usize) -> Vec<usize> {
        self.committed
            .iter()
            .copied()
            .filter(|&entry| self.entry(entry).items.contains(&data))
            .collect()
    }
}
