//! The stores of an append on the file itself: they are carried out on the mapped file, with a sync
//! wherever the library says, as the page for those who write a host has it.
use crate::fault::{said, Fault};
use crate::image::N_ENTRIES;
use crate::signals;
use crate::system::{self, Mapped};
use std::fs::File;
use std::path::Path;
use wrapper::between_syncs;

/// The file as it was read, to be written. Its blocks come first: a store to a mapped hole on a full
/// disk would end the program in the middle of the append.
pub fn mapped(path: &Path, file: &File, image: &[u8]) -> Result<Mapped, Fault> {
    let fault = |error| Fault::system(path, &error);
    system::allocate(file, image.len()).map_err(fault)?;
    let mut mapped = Mapped::new(file, image.len()).map_err(fault)?;
    has_length(path, file, image)?;
    signals::say_at_a_lost_page(&Fault::of(path, CUT_SHORT));
    match mapped.bytes() == image {
        true => Ok(mapped),
        false => Err(Fault::of(
            path,
            "another program writes it, and does not go by its lock",
        )),
    }
}

const CUT_SHORT: &str = "another program cut it short, and the append stops there";

/// Whether the file is as long as it was, so far as can be seen at this moment.
pub fn has_length(path: &Path, file: &File, image: &[u8]) -> Result<(), Fault> {
    let facts = file
        .metadata()
        .map_err(|error| Fault::system(path, &error))?;
    match facts.len() < image.len() as u64 {
        true => Err(Fault::of(path, CUT_SHORT)),
        false => Ok(()),
    }
}

/// Carries the stores out with a sync at each place that the library says; the number of syncs.
pub fn at_places(path: &Path, mapped: &mut Mapped, list: &[u8]) -> Result<usize, Fault> {
    in_parts(path, mapped, &between_syncs(list))
}

/// The same with one sync, behind the last store.
pub fn at_the_end(path: &Path, mapped: &mut Mapped, list: &[u8]) -> Result<usize, Fault> {
    in_parts(path, mapped, &[list])
}

fn in_parts(path: &Path, mapped: &mut Mapped, parts: &[&[u8]]) -> Result<usize, Fault> {
    for (part, n) in parts.iter().zip(1..) {
        all(path, mapped, part)?;
        mapped.sync().map_err(|error| {
            let sync = format!("sync {n} of {} failed: {}", parts.len(), said(&error));
            let entries = on_the_disk(parts, n);
            Fault::of(path, format!("{sync}; the append stops there{entries}"))
        })?;
    }
    Ok(parts.len())
}

/// Carries all stores of a list out, without a sync.
pub fn all(path: &Path, mapped: &mut Mapped, list: &[u8]) -> Result<(), Fault> {
    wrapper::carry_out(mapped.bytes(), list, list.len() as u64 / 16)
        .map_err(|refusal| Fault::because(path, refusal, refusal.sentence()))
}

/// What is known of the entries where the sync behind the n-th part failed; to follow other words. The store of
/// n_entries commits an entry.
fn on_the_disk(parts: &[&[u8]], n: usize) -> String {
    let commits = |parts: &[&[u8]]| {
        let stores = parts.iter().flat_map(|part| part.chunks_exact(16));
        let commits = stores.filter(|store| store[..8] == N_ENTRIES.to_le_bytes());
        commits.count()
    };
    let (before, all) = (commits(&parts[..n - 1]), commits(parts));
    match (before, commits(&parts[n - 1..n]), all) {
        (0, 0, _) => String::new(),
        (1, _, 1) => "; the entry is on the disk".to_string(),
        (0, _, 1) => "; the entry may be on the disk or not".to_string(),
        (0, _, _) => format!("; of its {all} entries some may be on the disk"),
        (_, 0, _) => format!("; of its {all} entries the first {before} are on the disk"),
        _ => format!(
            "; of its {all} entries the first {before} are on the disk, and the next may be"
        ),
    }
}
