//! Every cut of an append: journalctl shows the entries from before it, and from the commit store on
//! also the new one.
use checks::random::Random;
use reading::layout::Layout;
use wrapper::sync_points;

use crate::check::{exported, shown};
use crate::entries::{grown_in, logged};
use crate::export::Entry;
use crate::file::{can_be_asked, File};
use crate::written::{carry_out, nth, planned};

fn entries(image: &[u8]) -> Vec<Entry> {
    shown(image).into_iter().map(|(_, entry)| entry).collect()
}

#[test]
fn every_cut() {
    let (regular, compact) = (Layout::Regular, Layout::Compact);
    for (layout, header_size, before, keyed) in [
        (regular, 256, 0, 0),
        (regular, 256, 0, 1),
        (regular, 256, 12, 0),
        (regular, 256, 12, 1),
        (regular, 272, 0, 1),
        (regular, 272, 12, 0),
        (compact, 256, 0, 0),
        (compact, 272, 12, 1),
    ] {
        let random = &mut Random::new(300 + keyed);
        let image = grown_in(layout, header_size, random, (3, 2), keyed, before);
        let mut payloads = logged(random, before + 1);
        payloads.push(b"NEW=1".to_vec());
        let list = planned(&image, nth(before + 1), &payloads);
        let mut whole = image.clone();
        carry_out(&mut whole, &list);
        let (old, new) = (entries(&image), entries(&whole));
        assert_eq!((old.len() as u64, new.len() as u64), (before, before + 1));

        let [objects, .., commit, count] = sync_points(&list)[..] else {
            panic!("syncs behind the objects, the commit store and the last one");
        };
        for k in 0..=count {
            let mut cut = image.clone();
            assert_eq!(wrapper::carry_out(&mut cut, &list, k as u64), Ok(()));
            if !can_be_asked(&cut) {
                continue;
            }
            let file = File::new(&cut);
            let expected = if k < commit { &old } else { &new };
            assert!(exported(&file, &[]) == *expected, "{k} of {count} stores");
            // In between there is an ENTRY that n_entries does not count.
            if k <= objects || k >= commit {
                assert_eq!(file.verify(), Ok(()), "{k} of {count} stores");
            }
        }
    }
}
