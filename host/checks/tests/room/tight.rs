//! The bounds can't be smaller: files that meet them.
use reading::layout::Layout;
use reading::request::packed;
use reading::sizing::{bytes, most_global, most_of_data, room, rooms};

use crate::file::File;
use crate::seen::Seen;

/// Where the first entry behind full arrays of 4, 8, 16, .. items is the last one.
const MET: [u64; 11] = [1, 5, 13, 29, 61, 125, 253, 509, 1_021, 2_045, 4_093];

/// One payload over and over, one append at a time: the room is the bound itself where the last entry made an
/// array, in the header's chain and with one entry more in the DATA's, and nowhere else.
#[test]
fn met_by_files() {
    let mut seen = Seen::default();
    for kind in [(Layout::Regular, 256, false), (Layout::Compact, 272, true)] {
        let mut file = File::new(kind, 500_000, 1, &mut seen);
        let fields = packed(&[b"RESULT=sprouted"]);
        while file.entries < 4_100 {
            assert_eq!(file.append(&fields), 0);
        }
    }
    seen.print("one payload over and over");
    assert!(seen.global.at.iter().copied().eq(1..=4_100));
    assert!(seen.data.at.iter().copied().eq(2..=4_100));
    assert!(seen.global.met.iter().copied().eq(MET));
    let with_one_more = MET.map(|entries| entries + 1);
    assert!(seen.data.met.iter().copied().eq(with_one_more));
}

/// The same by the rule alone, for more entries than any file has: a chain of a file of 8 MiB has no array
/// that is not twice the one before.
#[test]
fn met_by_the_rule() {
    let mut met = Vec::new();
    for entries in 1..=131_068 {
        let global = room(entries);
        assert!(global <= most_global(entries), "{entries} entries");
        if global == most_global(entries) {
            met.push(entries);
        }
        let data = room(entries - 1);
        assert!(data <= most_of_data(entries), "{entries} entries of a DATA");
    }
    assert_eq!(met.len(), 15);
    assert_eq!(met[..11], MET);
    // From here on an array is not greater than the one before, and there is room for less.
    assert_eq!(rooms(131_069).len(), 16);
    assert_eq!(rooms(131_069)[14..], [65_536, 65_536]);
    assert!(room(131_069) < most_global(131_069));
}

/// An array has 24 bytes and those of its items; since the items are an even number, nothing is rounded up
/// in a compact file either.
#[test]
fn bytes_of_arrays() {
    for items in [0, 1, 4, 5, 12, 13, 3_000, 140_000] {
        let heads = 24 * rooms(items).len() as u64;
        assert_eq!(bytes(Layout::Regular, items), heads + 8 * room(items));
        assert_eq!(bytes(Layout::Compact, items), heads + 4 * room(items));
    }
}
