//! How the call is tried: its answer compared with the reading's, and counted by what is at fault.
use checks::against::trial::hex;
use checks::against::why::compare;
use reading::refusal::clause::*;
use reading::refusal::faults;
use reading::why::Why;
use std::collections::{BTreeMap, BTreeSet};

/// How often a clause was at fault at the place that was named.
#[derive(Default)]
struct Times {
    /// With no other fault in the image.
    alone: u64,
    /// With another clause at the same place.
    together: u64,
    /// With another fault of the number at a later place.
    before: u64,
    /// At a later place than the one named.
    behind: u64,
}

/// How much was compared.
#[derive(Default)]
pub struct Tried {
    /// Images by their number.
    pub answers: [u64; 12],
    clauses: BTreeMap<Clause, Times>,
    /// By number: the fault that comes first in the order of the rule's words stands at a later place
    /// than the one named.
    later_first: [u64; 12],
    /// Refused with 11: with a wrong hash at the place, with none there but one elsewhere, with none.
    hashes: [u64; 3],
}

impl Tried {
    /// Compares both answers.
    pub fn image(&mut self, image: &[u8]) -> Why {
        let why = compare(image, self.tried())
            .unwrap_or_else(|difference| panic!("{difference}, of {}", hex(image)));
        self.answers[why.refusal as usize] += 1;
        self.count(image, &why);
        why
    }

    fn count(&mut self, image: &[u8], why: &Why) {
        let found = faults(image);
        let at = |clause: Clause, here: bool| {
            let mut of_it = found.iter().filter(|fault| fault.clause == clause);
            of_it.any(|fault| (fault.place == why.place) == here)
        };
        let all = BTreeSet::from_iter(found.iter().map(|fault| fault.clause));
        let here = all.iter().filter(|&&clause| at(clause, true)).count();
        let elsewhere = found.iter().any(|fault| fault.place != why.place);
        for &clause in &all {
            let times = self.clauses.entry(clause).or_default();
            if at(clause, true) {
                times.together += u64::from(here > 1);
                times.before += u64::from(elsewhere);
                times.alone += u64::from(here == 1 && !elsewhere);
            }
            times.behind += u64::from(at(clause, false));
        }
        if let Some(first) = found.first() {
            let later = u64::from(first.place > why.place);
            self.later_first[why.refusal as usize] += later;
        }
        if why.refusal == 11 {
            let of_hash = |clause: &&Clause| clause.name.contains("hash wrong");
            let sort = match (why.hash_wrong, all.iter().find(of_hash)) {
                (1, _) => 0,
                (_, Some(_)) => 1,
                _ => 2,
            };
            self.hashes[sort] += 1;
        }
    }

    pub fn tried(&self) -> u64 {
        self.answers.iter().sum()
    }

    pub fn print(&self, what: &str) {
        println!(
            "{what}: {} images, by their number {:?}; a later place comes first in the rule's words {:?}; \
             of 11 with a wrong hash at the place, elsewhere, nowhere {:?}",
            self.tried(),
            self.answers,
            self.later_first,
            self.hashes,
        );
    }

    /// Every clause of these numbers was named, with nothing else at fault so often; and before another
    /// fault; and stood behind one.
    pub fn covers(&self, numbers: &[u64], alone: u64) {
        println!("{:>3} alone together before behind", "no.");
        let none = Times::default();
        for &clause in CLAUSES.iter().filter(|it| numbers.contains(&it.number)) {
            let times = self.clauses.get(&clause).unwrap_or(&none);
            println!(
                "{:>3} {:>5} {:>8} {:>6} {:>6}  {}",
                clause.number, times.alone, times.together, times.before, times.behind, clause.name
            );
            // Equal offsets are the same entry, so equal seqnums come with them.
            let never = clause == OFFSETS_EQUAL;
            assert!(never || times.alone >= alone, "{clause:?} alone");
            let never = in_header(clause) && clause != HEADER_ARRAY || at_the_end(clause);
            assert!(never || times.before > 0, "{clause:?} before another");
            let never = in_header(clause);
            assert!(never || times.behind > 0, "{clause:?} behind another");
        }
    }

    /// At 11 a wrong hash stood at the place, elsewhere and nowhere; and in each of these numbers the place
    /// was not that of the fault that comes first in the rule's words.
    pub fn in_any_order(&self, numbers: &[u64]) {
        assert!(self.hashes.iter().all(|&times| times > 20));
        for &number in numbers {
            assert!(self.later_first[number as usize] > 20, "{number}");
        }
    }
}

/// Whether the place is the header, before which nothing stands.
fn in_header(clause: Clause) -> bool {
    let walked_none = matches!(clause, TAIL_ZERO | TAIL_IN_HEADER);
    matches!(clause.number, 1..=5 | 7) || walked_none || clause == HEADER_ARRAY
}

/// Whether nothing is judged behind it.
fn at_the_end(clause: Clause) -> bool {
    matches!(
        clause,
        TAIL_IN_OBJECT
            | TAIL_PAST_END
            | OBJECT_PASSES_END
            | OBJECT_HEADER_PASSES_END
            | COUNT_ABOVE_CHAIN
    )
}
