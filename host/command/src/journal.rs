//! A file that entries are appended to by batches, each by one plan and one list of stores.
use crate::done::Manner;
use crate::fault::Fault;
use crate::planned::Tray;
use crate::text::counted;
use crate::ways::Way;
use crate::{carry, settle, signals};
use std::fs::File;
use std::path::Path;

/// A file that is locked, its image, the sequence number of its last entry or 0, and what was done.
pub struct Journal<'a> {
    pub path: &'a Path,
    pub image: Vec<u8>,
    pub last: u64,
    pub sum: Sum,
    file: File,
    way: Way,
}

/// What was done.
#[derive(Clone, Copy, Default)]
pub struct Sum {
    pub entries: usize,
    pub batches: usize,
    stores: usize,
    syncs: usize,
}

impl Sum {
    fn add(&mut self, more: Sum) {
        self.entries += more.entries;
        self.batches += more.batches;
        self.stores += more.stores;
        self.syncs += more.syncs;
    }

    /// What it cost, in words.
    pub fn costs(&self) -> String {
        let stores = counted(self.stores, "store", "stores");
        format!("{stores}, {}", counted(self.syncs, "sync", "syncs"))
    }

    /// The same with the number of batches.
    pub fn in_batches(&self) -> String {
        let batches = counted(self.batches, "batch", "batches");
        format!("in {batches}, {}", self.costs())
    }

    /// All of it.
    pub fn all(&self) -> String {
        let entries = counted(self.entries, "entry", "entries");
        format!("appended {entries} {}", self.in_batches())
    }
}

/// So many entries that were appended, by their sequence numbers.
pub fn numbers(count: usize, first: u64, last: u64) -> String {
    match count {
        1 => format!("entry {first}"),
        _ => format!("{count} entries, {first} to {last}"),
    }
}

impl<'a> Journal<'a> {
    pub fn open(path: &'a Path, way: Way, manner: &Manner) -> Result<Journal<'a>, Fault> {
        let (file, image) = settle::locked(path, manner)?;
        way.suits(path, &file)?;
        let refused = |refusal| Fault::refused(path, &image, refusal);
        let entries = wrapper::all_entries(&image).map_err(refused)?;
        let last = entries.last().map_or(0, |entry| entry.seqnum);
        Ok(Journal {
            path,
            image,
            last,
            sum: Sum::default(),
            file,
            way,
        })
    }

    /// Appends a batch that was planned; `say` is told what this one did, and what all of them did. After the
    /// last one the file is not locked any more.
    pub fn append(
        &mut self,
        tray: &Tray,
        list: &[u8],
        is_last: bool,
        say: impl FnOnce(&Sum, &Sum),
    ) -> Result<(), Fault> {
        let path = self.path;
        let mut mapped = carry::mapped(path, &self.file, &self.image)?;
        // As of one entry: nobody ends this program from the first store to the message.
        signals::held(|| {
            let syncs = self.way.carry_out(path, &self.file, &mut mapped, list)?;
            carry::has_length(path, &self.file, &self.image)?;
            drop(mapped);
            if is_last {
                // The next program has its turn, also if nobody takes the answer.
                let unlocked = self.file.unlock();
                unlocked.map_err(|error| Fault::system(path, &error))?;
            }
            let done = Sum {
                entries: tray.entries.len(),
                batches: 1,
                stores: list.len() / 16,
                syncs,
            };
            self.sum.add(done);
            say(&done, &self.sum);
            Ok(())
        })?;
        self.last = tray.last().unwrap_or(self.last);
        wrapper::carry_out(&mut self.image, list, list.len() as u64 / 16)
            .map_err(|refusal| Fault::because(path, refusal, refusal.sentence()))
    }
}
