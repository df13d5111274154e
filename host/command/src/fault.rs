//! What goes wrong, in one line for a person, of `check` in several, and the status that the program ends with.
use crate::text::shown;
use crate::why_file;
use std::io::{Error, ErrorKind};
use std::os::unix::ffi::OsStrExt;
use std::path::{Path, PathBuf};
use wrapper::Refusal;

pub struct Fault {
    pub words: String,
    pub status: u8,
}

/// The statuses, besides 0: done.
mod status {
    /// Not found, or the system refuses.
    pub const FAILED: u8 = 1;
    pub const TYPED_WRONGLY: u8 = 2;
    /// The file can't be read: 1 to 11, and by the plain reader 14.
    pub const UNREADABLE: u8 = 3;
    /// The file or the entry is not one to append, the new file not one to make, the entry or the text not one to
    /// exchange: 12 to 17, 20, 23 to 25.
    pub const NOT_TAKEN: u8 = 4;
    /// There is no room in the file: 18.
    pub const FULL: u8 = 5;
    /// Another program has the file's lock.
    pub const BUSY: u8 = 6;
}

const ONLY_PLAINLY: &str =
    "the file's counters or indexes do not agree with its entries, as after an append that was cut \
     off, and the plain reader takes no such file: read it without --plain";

impl Fault {
    /// What was typed is not how the program is used.
    pub fn usage(words: impl Into<String>) -> Fault {
        let words = words.into();
        Fault {
            words: format!("{words} (--help tells more)"),
            status: status::TYPED_WRONGLY,
        }
    }

    /// About a file.
    pub fn of(file: &Path, words: impl AsRef<str>) -> Fault {
        let name = shown(file.as_os_str().as_bytes());
        Fault {
            words: format!("{name}: {}", words.as_ref()),
            status: status::FAILED,
        }
    }

    /// About two files.
    pub fn of_both(files: &[PathBuf; 2], words: impl AsRef<str>) -> Fault {
        let [first, second] = files.each_ref().map(|it| shown(it.as_os_str().as_bytes()));
        Fault {
            words: format!("{first} and {second}: {}", words.as_ref()),
            status: status::FAILED,
        }
    }

    /// The library refuses a file, of which this image was read. The sentence is the same for every
    /// command.
    pub fn refused(file: &Path, image: &[u8], refusal: Refusal) -> Fault {
        Fault::because(file, refusal, &why_file::sentence(image, refusal))
    }

    /// The plain reader refuses. 14 keeps it from reading, and not the other one.
    pub fn refused_plainly(file: &Path, image: &[u8], refusal: Refusal) -> Fault {
        match refusal.number() {
            14 => Fault {
                status: status::UNREADABLE,
                ..Fault::because(file, refusal, ONLY_PLAINLY)
            },
            _ => Fault::refused(file, image, refusal),
        }
    }

    /// For `check`: the sentence alone, and then lines with more.
    pub fn in_full(file: &Path, sentence: &str, lines: &[String]) -> Fault {
        let lines = lines.iter().map(|line| format!("\n{line}"));
        Fault {
            status: status::UNREADABLE,
            ..Fault::of(file, format!("{sentence}{}", String::from_iter(lines)))
        }
    }

    /// The library refuses, with the sentence that a person reads first.
    pub fn because(file: &Path, refusal: Refusal, sentence: &str) -> Fault {
        let status = match refusal.number() {
            1..=11 => status::UNREADABLE,
            18 => status::FULL,
            _ => status::NOT_TAKEN,
        };
        let fault = Fault::of(file, format!("{sentence} ({})", refusal.rule()));
        Fault { status, ..fault }
    }

    /// The rules take it, and this program doubts that it is meant.
    pub fn doubtful(file: &Path, words: String) -> Fault {
        let fault = Fault::of(file, format!("{words} (--anyway appends it)"));
        let status = status::NOT_TAKEN;
        Fault { status, ..fault }
    }

    /// Another program has the file's lock.
    pub fn busy(file: &Path, words: &str) -> Fault {
        let status = status::BUSY;
        Fault {
            status,
            ..Fault::of(file, words)
        }
    }

    /// The system refuses.
    pub fn system(file: &Path, error: &Error) -> Fault {
        Fault::of(file, said(error))
    }

    /// The same, with more to say.
    pub fn also(mut self, words: Option<&str>) -> Fault {
        if let Some(words) = words {
            self.words += &format!("; {words}");
        }
        self
    }

    /// All that is said, as a line; of `check` with the lines after it.
    pub fn line(&self) -> String {
        format!("journal: {}\n", self.words)
    }

    /// There is no memory for a thread.
    pub fn memory(error: &Error) -> Fault {
        Fault {
            words: format!("no thread to work in: {}", said(error)),
            status: status::FAILED,
        }
    }

    /// The answer can't be printed.
    pub fn answer(error: Error) -> Fault {
        Fault {
            words: format!("the answer can't be written: {}", said(&error)),
            status: status::FAILED,
        }
    }
}

/// What the system says, in this program's words where a person meets it often.
pub fn said(error: &Error) -> String {
    match error.kind() {
        ErrorKind::NotFound => "there is no such file or folder".to_string(),
        ErrorKind::AlreadyExists => "is there already, and is not overwritten".to_string(),
        ErrorKind::PermissionDenied => "no permission".to_string(),
        ErrorKind::IsADirectory => "is a folder".to_string(),
        ErrorKind::NotADirectory => "a part of its path is no folder".to_string(),
        ErrorKind::StorageFull => "no room on the disk".to_string(),
        ErrorKind::QuotaExceeded => "no room in the quota".to_string(),
        ErrorKind::FileTooLarge => "longer than files may be here (ulimit -f)".to_string(),
        ErrorKind::ReadOnlyFilesystem => "the file system is read-only".to_string(),
        _ => error.to_string(),
    }
}
