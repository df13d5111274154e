//! `append --batch`: an entry for each line of a text. They go out in batches; where a line is bad, nothing of
//! its batch is appended.
use crate::append::packed;
use crate::done::{self, Manner};
use crate::fault::Fault;
use crate::journal::{numbers, Journal};
use crate::lines::{self, Line};
use crate::planned::{Tray, MOST};
use crate::stamps::Wished;
use crate::text::counted;
use crate::ways::Way;
use crate::why_batch::Batch;
use crate::{doubt, times};
use std::path::{Path, PathBuf};
use wrapper::{Exchanged, Refusal};

/// What was asked for.
pub struct Wish {
    /// The sequence number is that of the first entry; all else is the same for all.
    pub stamps: Wished,
    /// None: standard input.
    pub from: Option<PathBuf>,
    pub way: Way,
}

pub fn append(path: &Path, wish: &Wish, manner: &Manner) -> Result<(), Fault> {
    let lines = lines::read(wish.from.as_deref())?;
    let mut journal = Journal::open(path, wish.way, manner)?;
    let mut wished = wish.stamps;
    let mut batches = lines.chunks(MOST);
    while let Some(batch) = batches.next() {
        one(&mut journal, batch, &wished, batches.len() == 0, manner)?;
        // The next one counts on.
        wished.seqnum = None;
    }
    // Of one batch that is said already.
    if journal.sum.batches != 1 {
        done::say(manner, &journal.sum.all());
    }
    Ok(())
}

/// Appends a batch, or nothing of it.
fn one(
    journal: &mut Journal,
    lines: &[Line],
    wished: &Wished,
    is_last: bool,
    manner: &Manner,
) -> Result<(), Fault> {
    let path = journal.path;
    let stamps = wished.after(journal.last)?;
    let entry = |line: &Line| {
        Ok(Exchanged {
            realtime: stamps.realtime,
            monotonic: stamps.monotonic,
            boot_id: stamps.boot,
            fields: packed(&line.payloads)?,
        })
    };
    let entries: Result<Vec<Exchanged>, Refusal> = lines.iter().map(entry).collect();
    let entries = entries.map_err(|refusal| Fault::refused(path, &journal.image, refusal))?;
    let tray = Tray {
        machine: &stamps.machine,
        first: stamps.seqnum,
        entries: &entries,
    };
    let those_before = those_before(journal.sum.entries, lines);
    let list = tray.stores(&journal.image).map_err(|refused| {
        let batch = Batch {
            path,
            image: &journal.image,
            wished,
            tray,
            of_a_text: false,
        };
        batch.refused(refused, |index, why| {
            let done = match &those_before {
                Some(those) => format!("{those}, and none from there on"),
                None => "nothing is appended".to_string(),
            };
            format!("line {}: {why}; {done}", lines[index].number)
        })
    })?;
    doubt::none(path, wished, &tray.request(0))
        .and_then(|()| {
            journal.append(&tray, &list, is_last, |done, _| {
                let last = tray.last().unwrap_or(tray.first);
                let numbers = numbers(lines.len(), tray.first, last);
                let time = format!("{} ({})", times::shown(stamps.realtime), stamps.realtime);
                let words = format!("appended {numbers}, {time}, {}", done.costs());
                done::say(manner, &words);
            })
        })
        .map_err(|fault| fault.also(those_before.as_deref()))
}

/// The entries that are appended before those of some lines, if there are any.
fn those_before(count: usize, lines: &[Line]) -> Option<String> {
    let entries = counted(count, "entry", "entries");
    let line = lines[0].number;
    let words = format!("{entries} of the lines before line {line} are appended");
    (count > 0).then_some(words)
}
