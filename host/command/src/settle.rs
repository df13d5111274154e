//! What a command does about a redo list that it meets. One that reads takes it into account on its own
//! copy of the image; one that writes finishes the file, and removes the list.
use crate::beside::Beside;
use crate::carry;
use crate::done::{self, Manner};
use crate::fault::{said, Fault};
use crate::redo::List;
use crate::system::Mapped;
use crate::text::shown;
use crate::{files, signals};
use std::fs::File;
use std::os::unix::ffi::OsStrExt;
use std::path::Path;

/// The image that is to be read, of one that was read under the lock; and what there is to say of a
/// redo list.
pub fn read(path: &Path, image: Vec<u8>) -> Result<(Vec<u8>, Option<String>), Fault> {
    let beside = Beside::new(path);
    let (image, what) = match beside.read(&image)? {
        None => return Ok((image, None)),
        Some(List::Foreign(why)) => return Err(foreign(&beside, &why)),
        Some(List::Whole { finished, .. }) => (
            finished,
            "holds a batch that was cut off; all of it is in what is said here, and the next append \
             carries it out",
        ),
        Some(List::Broken) => (
            image,
            "is cut short, so that none of it was carried out; it is passed over, and the next append \
             removes it",
        ),
        Some(List::Stale) => (
            image,
            "is from before later entries; it is passed over, and the next append removes it",
        ),
    };
    Ok((image, Some(format!("redo list: {} {what}", name(&beside)))))
}

/// A file to append to, which stays locked until it is dropped, and its image: no redo list is left.
pub fn locked(path: &Path, manner: &Manner) -> Result<(File, Vec<u8>), Fault> {
    let (file, image) = files::read_and_lock(path, manner.wait)?;
    let beside = Beside::new(path);
    let name = name(&beside);
    let removed = |why: &str| {
        let syncs = beside.remove()?;
        done::say(
            manner,
            &format!("removed {name}, which {why}, {syncs} sync"),
        );
        Ok(())
    };
    match beside.read(&image)? {
        None => Ok((file, image)),
        Some(List::Foreign(why)) => Err(foreign(&beside, &why)),
        Some(List::Broken) => {
            removed("was cut short, so that none of it was carried out").map(|()| (file, image))
        }
        Some(List::Stale) => removed("was from before later entries").map(|()| (file, image)),
        Some(List::Whole { stores, finished }) => {
            let mut mapped = carry::mapped(path, &file, &image)?;
            signals::held(|| {
                // Its maker may have been ended before it was on the disk.
                let kept = beside.keep()?;
                let syncs = kept + carried_out(path, &mut mapped, &stores, &beside)?;
                carry::has_length(path, &file, &image)?;
                let count = stores.len() / 16;
                let words =
                    format!("carried {name} out and removed it, {count} stores, {syncs} syncs");
                done::say(manner, &words);
                Ok(())
            })?;
            Ok((file, finished))
        }
    }
}

/// Carries out the stores of a redo list that is on the disk, and removes it; the number of syncs.
pub fn carried_out(
    path: &Path,
    mapped: &mut Mapped,
    stores: &[u8],
    beside: &Beside,
) -> Result<usize, Fault> {
    carry::all(path, mapped, stores)?;
    mapped.sync().map_err(|error| {
        let name = name(beside);
        let words = format!("{name} stays, and the next append carries it out again");
        Fault::of(
            path,
            format!(
                "the sync behind the stores failed: {}; {words}",
                said(&error)
            ),
        )
    })?;
    let removed = beside.remove().map_err(|mut fault| {
        fault.words += "; its entries are on the disk";
        fault
    })?;
    Ok(1 + removed)
}

fn foreign(beside: &Beside, why: &str) -> Fault {
    let what = "it may be needed to finish that file: move it there, or away";
    Fault::of(&beside.path, format!("{why}; {what}"))
}

fn name(beside: &Beside) -> String {
    shown(beside.path.as_os_str().as_bytes())
}
