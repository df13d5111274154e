//! How the calls are tried: their answers compared with the reading's, and counted.
use checks::against::exchange::{export, import, text, Written};
use checks::against::trial::hex;
use reading::exchange::Stamps;
use reading::import::Entry;
use reading::lookup::open;
use reading::refusal::clause::*;
use std::collections::BTreeMap;

/// How much was compared.
#[derive(Default)]
pub struct Tried {
    /// Entries that were written, by what was said: 0 to 28.
    pub written: [u64; 29],
    /// Of those with 0: offsets at which there is none.
    pub none: u64,
    /// Texts that were read, by what was said.
    pub read: [u64; 29],
    /// How often a clause was the only one found in a text, and how often one of several.
    clauses: BTreeMap<Clause, [u64; 2]>,
}

impl Tried {
    fn tried(&self) -> u64 {
        self.written.iter().chain(&self.read).sum::<u64>() * 5
    }

    fn count(&mut self, written: Written) -> Written {
        let number = written.as_ref().err().copied().unwrap_or(0);
        self.written[number as usize] += 1;
        self.none += u64::from(written == Ok(None));
        written
    }

    /// Exports at each of these offsets; the texts.
    pub fn at(&mut self, image: &[u8], offsets: impl IntoIterator<Item = u64>) -> Vec<Written> {
        let opened = open(image);
        let one = |offset| {
            let written = export(image, &opened, offset, self.tried());
            let written =
                written.unwrap_or_else(|what| panic!("{what}, at {offset} of {}", hex(image)));
            self.count(written)
        };
        offsets.into_iter().map(one).collect()
    }

    /// Exports each committed entry, in order.
    pub fn entries(&mut self, image: &[u8]) -> Vec<Written> {
        let committed = open(image).map_or(Vec::new(), |journal| journal.committed);
        self.at(image, committed)
    }

    /// The text of stamps and fields.
    pub fn text(&mut self, stamps: &Stamps, fields: &[u8]) -> Written {
        let written = text(stamps, fields, self.tried());
        let written = written.unwrap_or_else(|what| panic!("{what}: {stamps:?}, {}", hex(fields)));
        self.count(written)
    }

    /// Imports a text: what is read, or the clauses of its refusal.
    pub fn import(&mut self, text: &[u8]) -> Result<Entry, Vec<Clause>> {
        let read = import(text, self.tried());
        let read = read.unwrap_or_else(|what| panic!("{what}, of {}", hex(text)));
        let found = read.as_ref().err().map_or(&[][..], |found| &found[..]);
        self.read[found.first().map_or(0, |it| it.number) as usize] += 1;
        for &clause in found {
            let times = self.clauses.entry(clause).or_default();
            times[usize::from(found.len() > 1)] += 1;
        }
        read
    }

    /// The number that an import says.
    pub fn number(&mut self, text: &[u8]) -> u64 {
        let read = self.import(text);
        read.err().map_or(0, |found| found[0].number)
    }

    pub fn print(&self, what: &str) {
        let shown = |numbers: &[u64; 29]| {
            let said = numbers.iter().zip(0..).filter(|(times, _)| **times > 0);
            let said = said.map(|(times, number): (_, u64)| format!("{number}: {times}"));
            Vec::from_iter(said).join(", ")
        };
        println!(
            "{what}: {} entries written ({}; none {}), {} texts read ({})",
            self.written.iter().sum::<u64>(),
            shown(&self.written),
            self.none,
            self.read.iter().sum::<u64>(),
            shown(&self.read),
        );
    }

    /// Each clause of a text was found alone so often, and those of 16 that a text can have.
    pub fn covers(&self, alone: u64) {
        println!("no. alone others");
        let of_fields = APPEND_CLAUSES.iter().filter(|it| it.number == 16);
        let clauses = TEXT_CLAUSES.iter().filter(|it| it.number != 28);
        for &clause in clauses.chain(of_fields) {
            // What is read is well packed, and `=` is put behind each name.
            if matches!(clause, BADLY_PACKED | NO_SIGN_IN_FIELD) {
                continue;
            }
            let times = self.clauses.get(&clause).copied().unwrap_or_default();
            let Clause { number, name } = clause;
            println!("{number:>3} {:>5} {:>6}  {name}", times[0], times[1]);
            assert!(times[0] >= alone, "{clause:?}");
        }
    }
}

/// Stamps to go with anything.
pub const SOME: Stamps = Stamps {
    realtime: 1_700_000_000_000_000,
    monotonic: 50,
    boot_id: [
        0x01, 0x23, 0x45, 0x67, 0x89, 0xab, 0xcd, 0xef, 0, 0x11, 0x22, 0x33, 0x44, 0x55, 0x66, 0x77,
    ],
};
