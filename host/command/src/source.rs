//! What is read: one file, or two as one stream, or one by the plain reader.
use crate::fault::Fault;
use crate::words::Files;
use crate::{files, plain};
use std::collections::HashSet;
use std::path::{Path, PathBuf};
use wrapper::{Entry, Offset, Refusal, Which};

/// An entry; of two files, which one it is from.
pub struct Row<'a> {
    pub file: Option<Which>,
    pub entry: Entry<'a>,
}

/// Files, and the images in them.
pub enum Source {
    One(PathBuf, Vec<u8>),
    Two([PathBuf; 2], [Vec<u8>; 2]),
    Plain(PathBuf, Vec<u8>),
}

impl Source {
    pub fn read(files: Files) -> Result<Source, Fault> {
        match files {
            Files::One(file) => {
                let image = files::read(&file)?;
                Ok(Source::One(file, image))
            }
            Files::Two(files) => {
                let images = [files::read(&files[0])?, files::read(&files[1])?];
                Ok(Source::Two(files, images))
            }
            Files::Plain(file) => {
                let image = files::read(&file)?;
                Ok(Source::Plain(file, image))
            }
        }
    }

    pub fn is_two(&self) -> bool {
        matches!(self, Source::Two(..))
    }

    /// All entries in order, of two files the stream. By the plain reader they come without their
    /// payloads, and so do those that are found: `shown` has them.
    pub fn entries(&self) -> Result<Vec<Row<'_>>, Fault> {
        match self {
            Source::One(_, image) => self.of_one(wrapper::all_entries(image)),
            Source::Plain(_, image) => self.of_one(plain::entries(image)),
            Source::Two(_, [first, second]) => {
                let all = wrapper::all_merged(first, second)
                    .map_err(|refused| self.refused(refused.file, refused.refusal))?;
                let row = |(file, entry)| Row {
                    file: Some(file),
                    entry,
                };
                Ok(all.into_iter().map(row).collect())
            }
        }
    }

    /// The first entry with a sequence number at or above one.
    pub fn from_seqnum(&self, seqnum: u64) -> Result<Option<Row<'_>>, Fault> {
        match self {
            Source::One(_, image) => self.at(wrapper::by_seqnum(image, seqnum)),
            Source::Plain(_, image) => self.at(wrapper::plain::by_seqnum(image, seqnum)),
            Source::Two(..) => self.first(|entry| entry.seqnum >= seqnum),
        }
    }

    /// The first entry with a wall time at or above one.
    pub fn from_time(&self, realtime: u64) -> Result<Option<Row<'_>>, Fault> {
        match self {
            Source::One(_, image) => self.at(wrapper::by_realtime(image, realtime)),
            Source::Plain(_, image) => self.at(wrapper::plain::by_realtime(image, realtime)),
            Source::Two(..) => self.first(|entry| entry.realtime >= realtime),
        }
    }

    /// The entries that hold all of some payloads.
    pub fn holding(&self, payloads: &[Vec<u8>]) -> Result<Vec<Row<'_>>, Fault> {
        let mut rows = match (self, payloads) {
            (Source::Plain(_, image), _) => return self.of_one(plain::holding(image, payloads)),
            (Source::One(_, image), [payload, ..]) => {
                self.of_one(wrapper::all_matches(image, payload))?
            }
            _ => self.entries()?,
        };
        let holds = |row: &Row, payload: &[u8]| row.entry.payloads.contains(&payload);
        rows.retain(|row| payloads.iter().all(|payload| holds(row, payload)));
        Ok(rows)
    }

    /// The entries that are to be printed, with their payloads.
    pub fn shown<'a>(&'a self, mut rows: Vec<Row<'a>>) -> Vec<Row<'a>> {
        if let Source::Plain(_, image) = self {
            for row in &mut rows {
                row.entry.payloads = plain::payloads(image, row.entry.offset);
            }
        }
        rows
    }

    /// The payloads of a field by falling DATA offset; of two files the first's, and then those of
    /// the second that the first has not.
    pub fn values(&self, name: &[u8]) -> Result<Vec<(Option<Which>, &[u8])>, Fault> {
        let of = |file: Which, all: Result<Vec<_>, Refusal>| {
            all.map_err(|refusal| self.refused(file, refusal))
        };
        let without_file = |all: Vec<_>| all.into_iter().map(|it| (None, it)).collect();
        match self {
            Source::One(_, image) => {
                of(Which::First, wrapper::all_values(image, name)).map(without_file)
            }
            Source::Plain(_, image) => {
                of(Which::First, plain::values(image, name)).map(without_file)
            }
            Source::Two(_, [first, second]) => {
                let first = of(Which::First, wrapper::all_values(first, name))?;
                let mut second = of(Which::Second, wrapper::all_values(second, name))?;
                let known: HashSet<&[u8]> = first.iter().copied().collect();
                second.retain(|payload| !known.contains(payload));
                let first = first.into_iter().map(|it| (Some(Which::First), it));
                let second = second.into_iter().map(|it| (Some(Which::Second), it));
                Ok(first.chain(second).collect())
            }
        }
    }

    /// The file that an entry is from.
    pub fn path(&self, row: &Row) -> &Path {
        match self {
            Source::One(file, _) | Source::Plain(file, _) => file,
            Source::Two([first, second], _) => row.file.map_or(first, |it| it.of(first, second)),
        }
    }

    /// What is the matter with what was read.
    pub fn fault(&self, words: impl AsRef<str>) -> Fault {
        match self {
            Source::One(file, _) | Source::Plain(file, _) => Fault::of(file, words),
            Source::Two(files, _) => Fault::of_both(files, words),
        }
    }

    /// The library refuses a file.
    fn refused(&self, file: Which, refusal: Refusal) -> Fault {
        match self {
            Source::One(file, image) => Fault::refused(file, image, refusal),
            Source::Plain(file, image) => Fault::refused_plainly(file, image, refusal),
            Source::Two([first, second], images) => {
                let image = file.of(&images[0], &images[1]);
                Fault::refused(file.of(first, second), image, refusal)
            }
        }
    }

    fn of_one<'a>(&self, all: Result<Vec<Entry<'a>>, Refusal>) -> Result<Vec<Row<'a>>, Fault> {
        let all = all.map_err(|refusal| self.refused(Which::First, refusal))?;
        let row = |entry| Row { file: None, entry };
        Ok(all.into_iter().map(row).collect())
    }

    /// The entry that a lookup in one file answers by its offset.
    fn at(&self, answer: Result<Option<Offset>, Refusal>) -> Result<Option<Row<'_>>, Fault> {
        let answer = answer.map_err(|refusal| self.refused(Which::First, refusal))?;
        match (answer, self) {
            (Some(offset), Source::Plain(_, image)) => Ok(Some(Row {
                file: None,
                entry: plain::at(image, offset),
            })),
            (Some(offset), _) => self.first(|entry| entry.offset == offset),
            (None, _) => Ok(None),
        }
    }

    fn first(&self, is_it: impl Fn(&Entry) -> bool) -> Result<Option<Row<'_>>, Fault> {
        let mut rows = self.entries()?.into_iter();
        Ok(rows.find(|row| is_it(&row.entry)))
    }
}
