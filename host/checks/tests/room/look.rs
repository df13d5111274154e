//! A look at a whole file: its chains of arrays and what they hold, by its objects and not by its counts.
use std::collections::BTreeMap;

use reading::image::Image;
use reading::layout::{data, header, kind};
use reading::sizing::{most_global, most_of_data, rooms};

/// Whose chain it is.
#[derive(Clone, Copy, Debug, PartialEq, Eq, PartialOrd, Ord)]
pub enum Of {
    Header,
    /// The DATA at an offset.
    Data(u64),
}

/// A chain of a file as it should be.
#[derive(Clone, Copy, Debug, PartialEq, Eq)]
pub struct Chain {
    pub of: Of,
    /// The entries of the file, or those that hold the DATA.
    pub entries: u64,
    /// The items that its arrays have room for, and the most that they may have.
    pub room: u64,
    pub most: u64,
}

/// What is the matter with a file.
#[derive(Clone, Debug, PartialEq, Eq)]
pub enum Fault {
    /// The arrays are not those of a chain that took these items one by one.
    Rooms(Of, Vec<u64>),
    /// They have more room than the bound gives them.
    AboveTheBound(Of, u64),
    /// It does not hold the entries in their order and nothing behind them, or its count is another one.
    Items(Of),
    /// The array at an offset is on no chain, or on so many.
    OnChains(u64, usize),
}

/// The chains of a file: the header's, and those of all DATA; or all that is the matter with them.
pub fn look(bytes: &[u8]) -> Result<Vec<Chain>, Vec<Fault>> {
    let image = &Image::walked(bytes);
    let mut look = Look {
        image,
        on_chains: BTreeMap::new(),
        faults: Vec::new(),
    };
    let entries = image.of_kind(kind::ENTRY);
    let mut holders: BTreeMap<u64, Vec<u64>> = BTreeMap::new();
    for entry in &entries {
        for (data, _) in image.entry_items(entry) {
            holders.entry(data).or_default().push(entry.offset);
        }
    }
    let entries: Vec<u64> = entries.iter().map(|entry| entry.offset).collect();
    let mut chains = vec![look.global(&entries)];
    for object in image.of_kind(kind::DATA) {
        let entries = holders.remove(&object.offset).unwrap_or_default();
        chains.push(look.of_data(object.offset, &entries));
    }
    for array in image.of_kind(kind::ENTRY_ARRAY) {
        let count = look.on_chains.remove(&array.offset).unwrap_or(0);
        if count != 1 {
            look.faults.push(Fault::OnChains(array.offset, count));
        }
    }
    match look.faults[..] {
        [] => Ok(chains),
        _ => Err(look.faults),
    }
}

struct Look<'a> {
    image: &'a Image<'a>,
    /// How many chains an array is on.
    on_chains: BTreeMap<u64, usize>,
    faults: Vec<Fault>,
}

impl Look<'_> {
    /// The header's chain, of a file with these entries.
    fn global(&mut self, entries: &[u64]) -> Chain {
        let count = entries.len() as u64;
        if self.image.word(header::N_ENTRIES) != count {
            self.faults.push(Fault::Items(Of::Header));
        }
        let first = self.image.word(header::ENTRY_ARRAY_OFFSET);
        let most = match count {
            0 => 0,
            _ => most_global(count),
        };
        self.chain(Of::Header, first, entries, count, most)
    }

    /// The chain of a DATA that these entries hold: the first of them is inline.
    fn of_data(&mut self, offset: u64, entries: &[u64]) -> Chain {
        let of = Of::Data(offset);
        let count = entries.len() as u64;
        let inline = self.image.word(offset + data::ENTRY_OFFSET);
        let counted = self.image.word(offset + data::N_ENTRIES);
        if counted != count || entries.first() != Some(&inline) {
            self.faults.push(Fault::Items(of));
        }
        let first = self.image.word(offset + data::ENTRY_ARRAY_OFFSET);
        let others = entries.get(1..).unwrap_or_default();
        self.chain(of, first, others, count, most_of_data(count))
    }

    fn chain(&mut self, of: Of, first: u64, items: &[u64], entries: u64, most: u64) -> Chain {
        let arrays = self.image.arrays(first);
        for array in &arrays {
            *self.on_chains.entry(array.offset).or_default() += 1;
        }
        let sizes: Vec<u64> = arrays.iter().map(|it| self.image.room(it)).collect();
        let room = sizes.iter().sum();
        let held = self.image.chain_items(first).into_iter();
        let mut held = held.map(|(_, item)| item);
        let in_order = items.iter().all(|&item| held.next() == Some(item));
        if !in_order || held.any(|item| item != 0) {
            self.faults.push(Fault::Items(of));
        }
        if sizes != rooms(items.len() as u64) {
            self.faults.push(Fault::Rooms(of, sizes));
        }
        if room > most {
            self.faults.push(Fault::AboveTheBound(of, room));
        }
        Chain {
            of,
            entries,
            room,
            most,
        }
    }
}
