//! What was seen in files: how calls were answered, and how near chains came to their bounds.
use std::collections::BTreeSet;

use crate::look::{Chain, Of};

#[derive(Default)]
pub struct Seen {
    /// How many appends and how many batches were answered so, by the refusal or 0.
    pub appends: [u64; 26],
    pub batches: [u64; 26],
    pub global: Near,
    pub data: Near,
    looks: u64,
    chains: u64,
}

/// Of the header's chains or of the DATA's: the nearest one, and at which counts of entries the room was
/// the bound itself and at which there was a chain at all.
#[derive(Default)]
pub struct Near {
    /// Its entries, its room and the most that it may have.
    nearest: Option<(u64, u64, u64)>,
    pub met: BTreeSet<u64>,
    pub at: BTreeSet<u64>,
}

impl Seen {
    pub fn look(&mut self, chains: &[Chain]) {
        self.looks += 1;
        self.chains += chains.len() as u64;
        for chain in chains.iter().filter(|chain| chain.most > 0) {
            match chain.of {
                Of::Header => self.global.see(chain),
                Of::Data(_) => self.data.see(chain),
            }
        }
    }

    pub fn print(&self, what: &str) {
        println!("{what}: {} looks at {} chains", self.looks, self.chains);
        for (calls, answers) in [("appends", &self.appends), ("batches", &self.batches)] {
            let all: u64 = answers.iter().sum();
            println!("  {all} {calls}, by their answers 0 to 25 {answers:?}");
        }
        println!("  nearest global chain: {}", self.global.words());
        println!("  nearest chain of a DATA: {}", self.data.words());
    }
}

impl Near {
    fn see(&mut self, chain: &Chain) {
        let (entries, room, most) = (chain.entries, chain.room, chain.most);
        self.at.insert(entries);
        if room == most {
            self.met.insert(entries);
        }
        // room / most, compared without a division.
        let nearer = |(_, other, most_other)| room * most_other > other * most;
        if self.nearest.map_or(true, nearer) {
            self.nearest = Some((entries, room, most));
        }
    }

    fn words(&self) -> String {
        self.nearest.map_or("none".to_string(), |near| {
            let (entries, room, most) = near;
            let ratio = room as f64 / most as f64;
            format!(
                "{room} of {most} at {entries} entries, {ratio:.3}; the bound is met at {:?}",
                self.met
            )
        })
    }
}
