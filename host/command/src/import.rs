//! `import`: the entries of a text in the Journal Export Format, with the stamps that they have there. They go
//! out in batches; where an entry is bad, all before it are appended, also those of its batch.
use crate::done::{self, Manner};
use crate::fault::Fault;
use crate::ids::{self, Id};
use crate::input;
use crate::journal::{numbers, Journal};
use crate::planned::{Tray, MOST};
use crate::progress::Progress;
use crate::stamps::Wished;
use crate::texts::{self, Texts};
use crate::ways::Way;
use crate::why_batch::Batch;
use std::path::{Path, PathBuf};

/// What was asked for.
pub struct Wish {
    /// Of the first entry.
    pub seqnum: Option<u64>,
    pub machine: Option<Id>,
    /// None: standard input.
    pub from: Option<PathBuf>,
    pub way: Way,
}

pub fn import(path: &Path, wish: &Wish, manner: &Manner) -> Result<(), Fault> {
    let texts = texts::judged(&input::read(wish.from.as_deref())?);
    let machine = wish.machine.map_or_else(ids::machine, Ok)?;
    let mut journal = Journal::open(path, wish.way, manner)?;
    let mut progress = Progress::new(manner);
    let first = wish.seqnum.unwrap_or(journal.last.saturating_add(1));
    let mut batches = texts.entries.chunks(MOST);
    while let Some(entries) = batches.next() {
        let before = journal.sum.entries;
        let tray = Tray {
            machine: &machine,
            first: first.saturating_add(before as u64),
            entries,
        };
        let Planned { tray, list, bad } = planned(&journal, tray, &texts, wish);
        let is_last = bad.is_some() || batches.len() == 0;
        if let Some(last) = tray.last() {
            let appended = journal.append(&tray, &list, is_last, |_, sum| {
                if is_last {
                    progress.clear();
                    let numbers = numbers(sum.entries, first, last);
                    done::say(manner, &format!("appended {numbers}, {}", sum.in_batches()));
                }
            });
            appended.map_err(|fault| fault.also(those_before(before).as_deref()))?;
        }
        bad.map_or(Ok(()), Err)?;
        progress.show(journal.sum.entries, texts.entries.len());
    }
    match texts.bad() {
        Some((refusal, words)) => Err(Fault::because(path, refusal, &words)),
        None if texts.entries.is_empty() => {
            done::say(manner, &journal.sum.all());
            Ok(())
        }
        None => Ok(()),
    }
}

/// Entries of a batch, the list of their stores, and what is the matter with the entry after them.
struct Planned<'a> {
    tray: Tray<'a>,
    list: Vec<u8>,
    bad: Option<Fault>,
}

/// All entries of a batch, or those before the first that is refused.
fn planned<'a>(journal: &Journal, mut tray: Tray<'a>, texts: &Texts, wish: &Wish) -> Planned<'a> {
    let before = journal.sum.entries;
    let wished = &Wished {
        seqnum: wish.seqnum.filter(|_| before == 0),
        machine: wish.machine,
        ..Wished::default()
    };
    let (mut list, mut bad) = (Vec::new(), None);
    while !tray.entries.is_empty() {
        match tray.stores(&journal.image) {
            Ok(stores) => {
                list = stores;
                break;
            }
            Err(refused) => {
                let batch = Batch {
                    path: journal.path,
                    image: &journal.image,
                    wished,
                    tray,
                    of_a_text: true,
                };
                let words = |index, why: String| texts.words(before + index, &why);
                bad = Some(batch.refused(refused, words));
                tray = tray.before(refused.index.unwrap_or(0) as usize);
            }
        }
    }
    Planned { tray, list, bad }
}

/// What is appended already where the system stops a batch.
fn those_before(count: usize) -> Option<String> {
    match count {
        0 => None,
        _ => Some(format!(
            "the first {count} entries of the text are appended"
        )),
    }
}
