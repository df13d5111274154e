//! That the other tests can fail: with one bit changed a file is not passed, or it is shown otherwise.
use checks::random::Random;
use reading::image::le64;
use reading::layout::{array, data, entry, header, Layout};
use wrapper::raw;

use crate::check::exported;
use crate::entries::grown_in;
use crate::export::Entry;
use crate::file::{knows_the_boot_bit, File};

/// What journalctl shows of a file that it passes: the entries, and the values of a field.
fn seen(image: &[u8]) -> Option<(Vec<Entry>, Vec<u8>)> {
    let file = File::new(image);
    file.verify().ok()?;
    let values = file.prints(&["--field=MESSAGE"]);
    Some((exported(&file, &[]), values))
}

#[test]
fn one_bit() {
    for (form, header_size, keyed) in [
        (Layout::Regular, 256, 0),
        (Layout::Regular, 256, 1),
        (Layout::Regular, 272, 1),
        (Layout::Compact, 272, 1),
    ] {
        let random = &mut Random::new(keyed);
        let image = grown_in(form, header_size, random, (3, 2), keyed, 9);
        let before = seen(&image);
        assert!(before.is_some());

        let payload = raw::value(&image, b"MESSAGE", 3);
        let data = payload.at - form.payload();
        let entry = raw::entry(&image, 4);
        let array = le64(&image, header::ENTRY_ARRAY_OFFSET);
        // An offset is changed by 256, anything else by 1.
        for at in [
            payload.at + payload.len - 1,
            data + data::HASH,
            data + data::NEXT_HASH_OFFSET + 1,
            data + data::NEXT_FIELD_OFFSET + 1,
            data + data::ENTRY_OFFSET + 1,
            data + data::ENTRY_ARRAY_OFFSET + 1,
            data + data::N_ENTRIES,
            entry + entry::SEQNUM,
            entry + entry::REALTIME,
            entry + entry::MONOTONIC,
            entry + entry::BOOT_ID,
            entry + entry::XOR_HASH,
            entry + entry::ITEMS + 1,
            array + array::NEXT_ENTRY_ARRAY_OFFSET + 1,
            array + array::ITEMS + 1,
            header::SEQNUM_ID,
            header::TAIL_OBJECT_OFFSET + 1,
            header::N_OBJECTS,
            header::N_ENTRIES,
            header::TAIL_ENTRY_SEQNUM,
            header::HEAD_ENTRY_SEQNUM,
            header::ENTRY_ARRAY_OFFSET + 1,
            header::HEAD_ENTRY_REALTIME,
            header::TAIL_ENTRY_REALTIME,
            header::TAIL_ENTRY_MONOTONIC,
            header::N_DATA,
            header::N_FIELDS,
            header::N_ENTRY_ARRAYS,
        ] {
            // Whoever knows compatible bit 1 looks at this time only where it is set.
            let free = at == header::TAIL_ENTRY_MONOTONIC && header_size == 256;
            if free && knows_the_boot_bit() {
                continue;
            }
            let mut damaged = image.clone();
            damaged[at as usize] ^= 1;
            assert!(seen(&damaged) != before, "a bit at {at} is not noticed");
        }
    }
}
