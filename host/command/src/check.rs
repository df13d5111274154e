//! `check`: whether a file can be read, and else all that can be said of why not; whether it takes
//! appends, how much room is left in it, what its header is, what was walked over, and a redo list
//! beside it.
use crate::fault::Fault;
use crate::files::PATIENCE;
use crate::image::{is_compact, word, HEADER_SIZE};
use crate::text::counted;
use crate::{facts, files, foreign, ids, why_file};
use std::io::Write;
use std::path::Path;
use wrapper::{BootMeaning, Entry, Planned, Refusal, Request};

pub fn check(file: &Path, out: &mut impl Write) -> Result<(), Fault> {
    let (image, redo) = files::read_within(file, PATIENCE)?;
    let refused = |refusal| match wrapper::why(&image) {
        Some(why) => facts::in_full(file, &image, &why),
        None => Fault::refused(file, &image, refusal),
    };
    let entries = wrapper::all_entries(&image).map_err(refused)?;
    let count = counted(entries.len(), "entry", "entries");
    let room = Room::of(&image);
    let appends = match hindrance(&image, entries.last(), &room) {
        None => format!("takes appends{}", of_another_machine(&image)),
        Some(why) => format!("takes no append: {why}"),
    };
    let room = room.words(entries.len() as u64);
    let header = header(&image).map_err(refused)?;
    let foreign = foreign::words(&image).map_err(refused)?;
    let more: String = [foreign, redo]
        .into_iter()
        .flatten()
        .map(|words| words + "\n")
        .collect();
    let lines = format!("opens, {count}\n{appends}\n{room}\n{header}\n{more}");
    out.write_all(lines.as_bytes()).map_err(Fault::answer)
}

/// How long the header is, whether the file is compact, and what its boot id means. Nothing says that the id is right.
fn header(image: &[u8]) -> Result<String, Refusal> {
    let boot = match wrapper::boot_meaning(image)? {
        BootMeaning::OfTailEntry => "it says that its boot id is that of the last entry",
        BootMeaning::OfLastWriter => "its boot id need not be that of the last entry",
    };
    let compact = if is_compact(image) { ", compact" } else { "" };
    let size = word(image, HEADER_SIZE);
    Ok(format!("header: {size} bytes{compact}; {boot}"))
}

/// What keeps any entry from being appended, if something does: the library is asked for the stores
/// of one that comes after the last, with a list that has no room for them.
fn hindrance(image: &[u8], last: Option<&Entry>, room: &Room) -> Option<String> {
    let request = Request {
        machine: &ids::machine_of(image),
        boot: &last.map_or([1; 16], |last| last.boot_id),
        seqnum: last.map_or(0, |last| last.seqnum).saturating_add(1),
        realtime: last.map_or(1, |last| last.realtime),
        monotonic: last.map_or(1, |last| last.monotonic),
        fields: b"\x02\0\0\0A=",
    };
    match wrapper::plan(image, &request, &mut []) {
        Planned::Refused(refusal) if refusal.number() == 17 => {
            Some("its last entry has the greatest sequence number: make a new file".to_string())
        }
        // Another entry might do with less.
        Planned::Refused(refusal)
            if refusal.number() == 18 && room.left >= smallest_entry(image) =>
        {
            None
        }
        Planned::Refused(refusal) => {
            let sentence = why_file::sentence(image, refusal);
            Some(format!("{sentence} ({})", refusal.rule()))
        }
        Planned::TooShort { .. } | Planned::Stores { .. } => None,
    }
}

/// What an append here has to say as well, since 15 refuses it otherwise.
fn of_another_machine(image: &[u8]) -> String {
    let machine = ids::machine_of(image);
    match ids::machine() {
        Ok(own) if own == machine => String::new(),
        _ => format!(" with --machine {}", ids::shown(&machine)),
    }
}

/// An ENTRY with one item, and its padding.
fn smallest_entry(image: &[u8]) -> u64 {
    match is_compact(image) {
        false => 80,
        true => 72,
    }
}

/// The arena of a file that opens, by its header.
struct Room {
    arena: u64,
    left: u64,
    /// By all that comes after the two tables.
    used: u64,
}

impl Room {
    fn of(image: &[u8]) -> Room {
        let word = |at| word(image, at);
        let (arena, tail) = (word(96), word(136));
        let end = tail + word(tail + 8).next_multiple_of(8);
        let tables = (word(104) + word(112)).max(word(120) + word(128));
        Room {
            arena,
            left: word(HEADER_SIZE) + arena - end,
            used: end - tables,
        }
    }

    fn words(&self, entries: u64) -> String {
        let Room { arena, left, used } = self;
        let start = format!("room: {left} of {arena} bytes left");
        match used.div_ceil(entries.max(1)) {
            _ if entries == 0 => start,
            mean => {
                let count = match left / mean {
                    0 => "no entry".to_string(),
                    count => format!("about {}", counted(count as usize, "entry", "entries")),
                };
                format!("{start}, for {count} of {mean} bytes, the present mean")
            }
        }
    }
}
