//! Three ways in which the stores of a batch reach the disk, and what each needs of it.
use crate::beside::Beside;
use crate::fault::Fault;
use crate::system::Mapped;
use crate::{carry, settle};
use std::ffi::OsStr;
use std::fs::File;
use std::os::unix::ffi::OsStrExt;
use std::os::unix::fs::MetadataExt;
use std::path::Path;

#[derive(Clone, Copy, PartialEq, Eq)]
pub enum Way {
    /// By a redo list beside the file: four syncs, and after a power cut the file alone may be anything
    /// between, but the list finishes it.
    Redo,
    /// With a sync at each place that the library says: the file alone is right after any power cut.
    Places,
    /// With one sync: the file is right after a power cut only if the system and the disk keep the order of
    /// stores, which a page cache does not. Where only the program is ended, it is right.
    End,
}

impl Way {
    pub fn typed(value: &OsStr) -> Result<Way, String> {
        match value.as_bytes() {
            b"redo" => Ok(Way::Redo),
            b"places" => Ok(Way::Places),
            b"end" => Ok(Way::End),
            _ => Err("it is redo, places or end".to_string()),
        }
    }

    /// Whether a file can be written so. A redo list is found by one name of a file alone.
    pub fn suits(self, path: &Path, file: &File) -> Result<(), Fault> {
        let facts = file.metadata();
        let names = facts.map_err(|error| Fault::system(path, &error))?.nlink();
        match self {
            Way::Redo if names > 1 => Err(Fault::of(
                path,
                format!(
                    "has {names} names (hard links), and a redo list would be found by one of them \
                     alone: give --sync places"
                ),
            )),
            _ => Ok(()),
        }
    }

    /// Carries the stores out on a file that is mapped; the number of syncs.
    pub fn carry_out(
        self,
        path: &Path,
        file: &File,
        mapped: &mut Mapped,
        list: &[u8],
    ) -> Result<usize, Fault> {
        match self {
            Way::Places => carry::at_places(path, mapped, list),
            Way::End => carry::at_the_end(path, mapped, list),
            Way::Redo => {
                let beside = Beside::new(path);
                let made = beside.make(file, mapped.bytes(), list)?;
                Ok(made + settle::carried_out(path, mapped, list, &beside)?)
            }
        }
    }
}
