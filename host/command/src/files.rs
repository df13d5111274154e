//! A journal file on disk: opened, locked and read whole.
//!
//! An appender holds the file's lock (`flock`) alone, readers share it, so that no reader's copy
//! has half of an append. Each waits a little for the others and then gives up. Programs that do
//! not go by this lock, as journald, are not seen.
use crate::fault::Fault;
use crate::settle;
use std::fs::{File, Metadata, OpenOptions, TryLockError};
use std::io::Read;
use std::os::unix::fs::MetadataExt;
use std::path::Path;
use std::time::{Duration, Instant};
use wrapper::LONGEST_IMAGE;

/// How long the lock is waited for, if nothing else is asked for.
pub const PATIENCE: Duration = Duration::from_secs(2);
const BETWEEN: Duration = Duration::from_millis(10);

/// The image in a file, to look at; with all of a batch that was cut off and has its redo list.
pub fn read(path: &Path) -> Result<Vec<u8>, Fault> {
    Ok(read_within(path, PATIENCE)?.0)
}

/// The same, with another patience, and with words on a redo list that stands beside the file.
pub fn read_within(path: &Path, patience: Duration) -> Result<(Vec<u8>, Option<String>), Fault> {
    let lock = |file: &File| match file.try_lock_shared() {
        // A file system without locks is still good to read from: nobody appends there.
        Err(TryLockError::Error(_)) => Ok(()),
        answer => answer,
    };
    let busy = "another program appends to it";
    let file = locked(path, OpenOptions::new().read(true), patience, lock, busy)?;
    settle::read(path, whole(path, &file)?)
}

/// A file to append to, which stays locked until it is dropped, and its image as it stands.
pub fn read_and_lock(path: &Path, patience: Duration) -> Result<(File, Vec<u8>), Fault> {
    let mut options = OpenOptions::new();
    let options = options.read(true).write(true);
    let file = locked(path, options, patience, File::try_lock, IN_USE)?;
    let image = whole(path, &file)?;
    Ok((file, image))
}

const IN_USE: &str = "another program appends to it, or reads it for long";

/// Takes the lock of a file that was just made, for this program alone.
pub fn lock(path: &Path, file: &File) -> Result<(), Fault> {
    let start = Instant::now();
    loop {
        match file.try_lock() {
            Ok(()) => return Ok(()),
            Err(TryLockError::Error(error)) => return Err(Fault::system(path, &error)),
            Err(TryLockError::WouldBlock) if start.elapsed() < PATIENCE => {
                std::thread::sleep(BETWEEN);
            }
            Err(TryLockError::WouldBlock) => return Err(Fault::busy(path, IN_USE)),
        }
    }
}

/// Opens a file and takes its lock. Another may be put in its place meanwhile, or it may be
/// removed: so it is opened anew each time, and what is locked in the end is what has the name.
fn locked(
    path: &Path,
    options: &OpenOptions,
    patience: Duration,
    lock: impl Fn(&File) -> Result<(), TryLockError>,
    busy: &str,
) -> Result<File, Fault> {
    let fault = |error| Fault::system(path, &error);
    let start = Instant::now();
    loop {
        let file = opened(path, options)?;
        let why = match lock(&file) {
            Ok(()) => {
                let [own, named] = [file.metadata(), std::fs::metadata(path)];
                if place(&own.map_err(fault)?) == place(&named.map_err(fault)?) {
                    return Ok(file);
                }
                "other files are put in its place all the time"
            }
            Err(TryLockError::Error(error)) => return Err(fault(error)),
            Err(TryLockError::WouldBlock) => busy,
        };
        if start.elapsed() >= patience {
            return Err(Fault::busy(path, why));
        }
        std::thread::sleep(BETWEEN);
    }
}

/// Two names with the same answer name one file.
fn place(facts: &Metadata) -> (u64, u64) {
    (facts.dev(), facts.ino())
}

/// Opens what is a file. Others are not opened at all: a pipe would wait for somebody to write to
/// it.
fn opened(path: &Path, options: &OpenOptions) -> Result<File, Fault> {
    let facts = std::fs::metadata(path).map_err(|error| Fault::system(path, &error))?;
    if facts.is_dir() {
        return Err(Fault::of(path, "is a folder"));
    }
    if !facts.is_file() {
        return Err(Fault::of(path, "is no ordinary file"));
    }
    options
        .open(path)
        .map_err(|error| Fault::system(path, &error))
}

/// All bytes; of a file that is too long, one more than an image may have.
fn whole(path: &Path, file: &File) -> Result<Vec<u8>, Fault> {
    let mut image = Vec::new();
    file.take(LONGEST_IMAGE + 1)
        .read_to_end(&mut image)
        .map_err(|error| Fault::system(path, &error))?;
    Ok(image)
}
