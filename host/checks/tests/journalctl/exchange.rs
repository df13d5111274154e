//! What `journalctl -o export` writes of an entry is imported: its stamps and payloads are those that the
//! archive's lookups show.
use checks::corpus::{self, FILES};
use checks::random::Random;
use reading::layout::Layout;
use wrapper::{import, Entry, Exchanged};

use crate::entries::{grown_in, logged};
use crate::export::line;
use crate::file::File;
use crate::payloads::kinds;
use crate::written::{append, new, new_with, nth, At};

/// The texts of the entries, one by one, each with its empty line.
pub fn cut(mut text: &[u8]) -> Vec<&[u8]> {
    let mut entries = Vec::new();
    while !text.is_empty() {
        let mut rest = text;
        loop {
            let (start, behind) = line(rest);
            rest = behind;
            if start.is_empty() {
                break;
            }
            if !start.contains(&b'=') {
                let (length, behind) = rest.split_at(8);
                let length = u64::from_le_bytes(length.try_into().expect("8 bytes"));
                rest = &behind[length as usize + 1..];
            }
        }
        let (entry, behind) = text.split_at(text.len() - rest.len());
        entries.push(entry);
        text = behind;
    }
    entries
}

/// Whether a payload goes out with its entry.
pub fn goes_out(payload: &[u8]) -> bool {
    !payload.starts_with(b"__") && !payload.starts_with(b"_BOOT_ID=")
}

/// What of an entry is exchanged.
pub fn shown(entry: &Entry) -> Exchanged {
    let mut entry = entry.clone();
    entry.payloads.retain(|payload| goes_out(payload));
    Exchanged::from(&entry)
}

/// Imports what journalctl exports; the number of entries, and of those whose payloads 16 refuses.
fn imported(image: &[u8]) -> [usize; 2] {
    let text = File::new(image).prints(&["--output=export"]);
    let texts = cut(&text);
    let entries = wrapper::all_entries(image).expect("it opens");
    assert_eq!(texts.len(), entries.len());
    let mut counts = [0; 2];
    for (text, entry) in texts.iter().zip(&entries) {
        let expected = shown(entry);
        let is = import(text);
        // The same of our own export.
        let ours = wrapper::export(image, entry.offset);
        if ours.is_err() {
            assert_eq!(ours.map(|_| ()).map_err(|it| it.number()), Err(16));
            assert_eq!(is.map_err(|it| it.number()), Err(16));
            counts[1] += 1;
            continue;
        }
        assert!(is == Ok(expected), "{}", String::from_utf8_lossy(text));
        let ours = ours.expect("16 lets it pass").expect("it is committed");
        assert_eq!(import(&ours), is);
        counts[0] += 1;
    }
    counts
}

#[test]
fn files_of_journald() {
    let counts = FILES.map(|(name, _)| imported(&corpus::image(name)));
    println!("imported, and refused with 16, of journald's files: {counts:?}");
    assert!(counts.iter().all(|[taken, _]| *taken > 0));
}

/// Written by the archive, in each layout that is written.
#[test]
fn files_of_the_archive() {
    let mut all = 0;
    for (layout, header_size, keyed) in [
        (Layout::Regular, 256, 0),
        (Layout::Regular, 272, 1),
        (Layout::Compact, 256, 1),
        (Layout::Compact, 272, 0),
    ] {
        let random = &mut Random::new(900 + keyed);
        let image = grown_in(layout, header_size, random, (33, 7), keyed, 120);
        let [taken, refused] = imported(&image);
        assert_eq!((taken, refused), (120, 0));
        all += taken;
    }
    println!("imported of the archive's files: {all}");
}

/// Each byte in a value, names of every length, what is set apart; of an entry with nothing else 16.
#[test]
fn payloads_of_every_kind() {
    for keyed in [0, 1] {
        let mut image = new(262_144, (7, 3), keyed);
        let mut n = 0;
        let apart = ["__X=1", "_BOOT_ID=1", "__CURSOR=s", "__="];
        let apart = apart.map(|it| it.as_bytes().to_vec()).to_vec();
        for payloads in kinds().into_iter().chain([apart]) {
            n += 1;
            append(&mut image, nth(n), &payloads);
        }
        assert_eq!(imported(&image), [n as usize - 1, 1]);
    }
}

/// The least and the greatest that journalctl takes, and several boots.
#[test]
fn stamps() {
    const LAST_TIME: u64 = (1 << 55) - 1;
    for header_size in [256, 272] {
        let mut image = new_with(header_size, 65_536, (3, 2), 1);
        let random = &mut Random::new(header_size);
        let mut n = 0;
        for realtime in [1, 9, 10, 1_000_000, LAST_TIME - 1, LAST_TIME] {
            for monotonic in [0, 9, 10, LAST_TIME] {
                n += 1;
                let boot = random.array();
                let seqnum = n << 40;
                let at = At {
                    boot,
                    seqnum,
                    realtime,
                    monotonic,
                };
                append(&mut image, at, &logged(random, n));
            }
        }
        assert_eq!(imported(&image), [24, 0]);
    }
}
