//! What is asked of every file.
use wrapper::Offset;

use crate::export::{looked_up, parsed, Entry};
use crate::file::{can_be_asked, File};

/// The offsets of the committed entries and what they show, by the archive's lookups.
pub fn shown(image: &[u8]) -> Vec<(Offset, Entry)> {
    let entries = (0..).map_while(|place| wrapper::entry(image, place).expect("it opens"));
    entries.map(|it| (it, looked_up(image, it))).collect()
}

/// The entries that journalctl shows when it is given these arguments.
pub fn exported(file: &File, arguments: &[&str]) -> Vec<Entry> {
    parsed(&file.prints(&[arguments, &["--output=export"]].concat()))
}

/// The image has so many entries; journalctl passes it, and shows of it what the archive shows.
pub fn check(image: &[u8], entries: usize) {
    check_shown(image, entries);
    if can_be_asked(image) {
        assert_eq!(File::new(image).verify(), Ok(()));
    }
}

/// The same without `--verify`.
pub fn check_shown(image: &[u8], entries: usize) {
    assert_eq!(wrapper::open(image), Ok(()));
    let shown: Vec<Entry> = shown(image).into_iter().map(|(_, entry)| entry).collect();
    assert_eq!(shown.len(), entries);
    if !can_be_asked(image) {
        return;
    }
    let exported = exported(&File::new(image), &[]);
    assert!(exported == shown, "journalctl shows other entries");
}
