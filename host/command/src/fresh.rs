//! A file that is not there yet: it is made whole, or nothing is left of it.
use crate::fault::{said, Fault};
use crate::{files, system};
use std::fs::{File, OpenOptions};
use std::io::Write;
use std::os::unix::fs::OpenOptionsExt;
use std::path::Path;

/// Who may read and write a new file, if nothing else is asked for: `umask` takes from this.
pub const MODE: u32 = 0o666;

/// Ends when the file and its name are on the disk. What is there already is not overwritten.
pub fn kept(path: &Path, image: &[u8], mode: u32) -> Result<(), Fault> {
    let fault = |error| Fault::system(path, &error);
    let mut options = OpenOptions::new();
    let file = options.read(true).write(true).create_new(true).mode(mode);
    let file = file.open(path).map_err(fault)?;
    written(path, file, image).map_err(|mut fault| {
        if let Err(error) = std::fs::remove_file(path) {
            fault.words += &format!("; and it can't be removed: {}", said(&error));
        }
        fault
    })
}

fn written(path: &Path, mut file: File, image: &[u8]) -> Result<(), Fault> {
    files::lock(path, &file)?;
    let folder = match path.parent() {
        Some(folder) if folder != Path::new("") => folder,
        _ => Path::new("."),
    };
    // An empty file has no blocks, and asking for none is an error.
    let blocks = match image.len() {
        0 => Ok(()),
        len => system::allocate(&file, len),
    };
    blocks
        .and_then(|()| file.write_all(image))
        .and_then(|()| file.sync_all())
        .and_then(|()| File::open(folder)?.sync_all())
        .map_err(|error| Fault::system(path, &error))
}
