//! The file of a redo list, `FILE.redo`, and its folder. Whoever makes, keeps or removes it holds the
//! journal's lock alone; whoever reads it shares that lock.
use crate::fault::{said, Fault};
use crate::redo::{self, List};
use std::fs::{File, OpenOptions, Permissions};
use std::io::{ErrorKind, Read, Result as Done, Write};
use std::os::unix::fs::{fchown, MetadataExt, OpenOptionsExt, PermissionsExt};
use std::path::{Path, PathBuf};
use wrapper::LONGEST_IMAGE;

pub struct Beside {
    pub path: PathBuf,
}

/// More bytes than a list has: a batch stores each word of its new objects once, and few others.
const LONGEST: u64 = 4 * LONGEST_IMAGE;

impl Beside {
    /// The one of a journal. Of a link it is beside the file, so that every link to it has the same.
    pub fn new(journal: &Path) -> Beside {
        let facts = std::fs::symlink_metadata(journal);
        let file = match facts.is_ok_and(|facts| facts.is_symlink()) {
            true => std::fs::canonicalize(journal).unwrap_or(journal.to_path_buf()),
            false => journal.to_path_buf(),
        };
        let mut path = file.into_os_string();
        path.push(".redo");
        Beside { path: path.into() }
    }

    /// What stands there, for the image in the journal; none where no file does.
    pub fn read(&self, image: &[u8]) -> Result<Option<List>, Fault> {
        let facts = std::fs::symlink_metadata(&self.path);
        if !facts.is_ok_and(|facts| facts.is_file()) {
            return Ok(None);
        }
        let mut list = Vec::new();
        let read =
            File::open(&self.path).and_then(|file| file.take(LONGEST).read_to_end(&mut list));
        match read {
            Ok(_) => Ok(Some(redo::judged(&list, image))),
            Err(error) if error.kind() == ErrorKind::NotFound => Ok(None),
            Err(error) => Err(Fault::of(
                &self.path,
                format!("{}: it may be needed to finish the file", said(&error)),
            )),
        }
    }

    /// Makes it, for an image and the stores that are to be carried out on it, and ends when it and its
    /// name are on the disk; the number of syncs. Nobody may read it who may not read the journal.
    pub fn make(&self, journal: &File, image: &[u8], stores: &[u8]) -> Result<usize, Fault> {
        let fault = |error| {
            let words = "no redo list can be made there (--sync places does without)";
            Fault::of(&self.path, format!("{}: {words}", said(&error)))
        };
        let mut options = OpenOptions::new();
        let file = options.write(true).create_new(true).mode(0o600);
        let mut file = file.open(&self.path).map_err(fault)?;
        let made = open_to_the_same(&file, journal)
            .and_then(|()| file.write_all(&redo::written(image, stores)))
            .and_then(|()| file.sync_all())
            .and_then(|()| self.sync_folder());
        made.map_err(|error| {
            let mut fault = fault(error);
            // It may not come back later, when the entries were appended by another way.
            if let Err(error) = std::fs::remove_file(&self.path).and_then(|()| self.sync_folder()) {
                fault.words += &format!("; and it can't be removed: {}", said(&error));
            }
            fault
        })?;
        Ok(2)
    }

    /// Ends when what stands there and its name are on the disk, whoever made it; the number of syncs.
    pub fn keep(&self) -> Result<usize, Fault> {
        File::open(&self.path)
            .and_then(|file| file.sync_all())
            .and_then(|()| self.sync_folder())
            .map_err(|error| Fault::system(&self.path, &error))?;
        Ok(2)
    }

    /// Ends when it is gone from the disk: it may not come back after later appends. The number of
    /// syncs.
    pub fn remove(&self) -> Result<usize, Fault> {
        std::fs::remove_file(&self.path)
            .and_then(|()| self.sync_folder())
            .map_err(|error| {
                Fault::of(&self.path, format!("can't be removed: {}", said(&error)))
            })?;
        Ok(1)
    }

    fn sync_folder(&self) -> Done<()> {
        let folder = match self.path.parent() {
            Some(folder) if folder != Path::new("") => folder,
            _ => Path::new("."),
        };
        File::open(folder)?.sync_all()
    }
}

/// Gives a file the owner, group and permissions of another; where it can't have them, it stays open to
/// this user alone.
fn open_to_the_same(file: &File, other: &File) -> Done<()> {
    let facts = other.metadata()?;
    match fchown(file, Some(facts.uid()), Some(facts.gid())) {
        Ok(()) => file.set_permissions(Permissions::from_mode(facts.mode() & 0o666)),
        Err(_) => Ok(()),
    }
}
