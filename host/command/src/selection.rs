//! Which of the entries are shown: those of a span of time, the last so many, and in which order.
use crate::arguments::{number, time};
use crate::fault::Fault;
use crate::source::Row;
use crate::times;
use crate::words::Words;

pub struct Selection {
    since: Option<u64>,
    until: Option<u64>,
    most: Option<u64>,
    reverse: bool,
}

/// The options.
pub const NAMES: [&str; 4] = ["--since", "--until", "-n", "--reverse"];

impl Selection {
    pub fn new(words: &Words) -> Result<Selection, Fault> {
        let all = Selection {
            since: words.option("--since", time)?,
            until: words.option("--until", time)?,
            most: words.option("-n", number)?,
            reverse: words.given("--reverse"),
        };
        match (all.since, all.until) {
            (Some(since), Some(until)) if since > until => {
                Err(Fault::usage("--since is later than --until"))
            }
            _ => Ok(all),
        }
    }

    /// The entries of the span; both ends belong to it. Each is looked at: nothing here rests on
    /// wall times that rise.
    pub fn span<'a>(&self, mut rows: Vec<Row<'a>>) -> Vec<Row<'a>> {
        let (since, until) = (self.since.unwrap_or(0), self.until.unwrap_or(u64::MAX));
        rows.retain(|row| (since..=until).contains(&row.entry.realtime));
        rows
    }

    /// The last so many of what is in order, the first one first, or the last one; `--reverse`
    /// turns that around.
    pub fn last<'a>(&self, mut rows: Vec<Row<'a>>, last_first: bool) -> Vec<Row<'a>> {
        let most = self.most.unwrap_or(u64::MAX).min(rows.len() as u64);
        rows.drain(..rows.len() - most as usize);
        if last_first != self.reverse {
            rows.reverse();
        }
        rows
    }

    /// The span in words, to follow others.
    pub fn words(&self) -> String {
        let one = |word: &str, time: Option<u64>| {
            time.map_or(String::new(), |time| {
                format!(" {word} {} ({time})", times::shown(time))
            })
        };
        one("since", self.since) + &one("until", self.until)
    }
}
