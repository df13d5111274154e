//! `copy`: a file's bytes as they are between two appends.
use crate::done::{self, Manner};
use crate::fault::Fault;
use crate::{files, fresh, signals};
use std::os::unix::fs::PermissionsExt;
use std::path::Path;
use wrapper::LONGEST_IMAGE;

/// The file is read under the shared lock, so that the copy has no half append; a batch that was cut
/// off and has its redo list is in it, all of it. A damaged file is copied too. Nobody may read the copy who may not read the file.
pub fn copy(path: &Path, to: &Path, manner: &Manner) -> Result<(), Fault> {
    let (image, _) = files::read_within(path, manner.wait)?;
    if image.len() as u64 > LONGEST_IMAGE {
        // More than this has not been read.
        wrapper::open(&image).map_err(|refusal| Fault::refused(path, &image, refusal))?;
    }
    let facts = std::fs::metadata(path).map_err(|error| Fault::system(path, &error))?;
    let mode = facts.permissions().mode() & 0o777;
    signals::held(|| {
        fresh::kept(to, &image, mode)?;
        done::say(manner, &format!("copied, {} bytes", image.len()));
        Ok(())
    })
}
