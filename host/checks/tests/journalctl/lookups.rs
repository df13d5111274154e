//! journalctl's own lookups, which go through the cells, the lists and the arrays that the archive
//! wrote: entries that hold a payload, the values of a field, the field names, entries from a wall time
//! on, entries from a cursor on.
use checks::random::Random;
use wrapper::Offset;

use crate::check::{exported, shown};
use crate::entries::{grown, CELLS};
use crate::export::Entry;
use crate::file::File;
use crate::written::nth;

struct Both {
    image: Vec<u8>,
    file: File,
    shown: Vec<(Offset, Entry)>,
}

impl Both {
    fn new(image: Vec<u8>) -> Both {
        Both {
            file: File::new(&image),
            shown: shown(&image),
            image,
        }
    }

    /// journalctl shows these entries and no other; their number.
    fn same(&self, argument: &str, is_shown: impl Fn(Offset) -> bool) -> usize {
        let entries = self.shown.iter().filter(|(offset, _)| is_shown(*offset));
        let entries: Vec<&Entry> = entries.map(|(_, entry)| entry).collect();
        let exported = exported(&self.file, &[argument]);
        assert!(entries.iter().copied().eq(&exported), "{argument}");
        entries.len()
    }

    /// `NAME=value`: the committed entries that hold it.
    fn held(&self, payload: &str) -> usize {
        let place = |place| wrapper::by_payload(&self.image, payload.as_bytes(), place);
        let entries: Vec<Offset> = (0..).map_while(|at| place(at).expect("it opens")).collect();
        self.same(payload, |offset| entries.contains(&offset))
    }

    /// `--field=NAME`: its values, by falling DATA offset.
    fn values(&self, name: &str) -> usize {
        let payloads = (0..).map_while(|at| wrapper::value(&self.image, name.as_bytes(), at));
        let lines: Vec<_> = payloads
            .map(|payload| [&payload[name.len() + 1..], b"\n"].concat())
            .collect();
        let printed = self.file.prints(&[&format!("--field={name}")]);
        assert!(printed == lines.concat(), "{name}");
        lines.len()
    }

    /// `--since=`: the entries from the first with a wall time at or above one on.
    fn since(&self, realtime: u64) -> usize {
        let first = wrapper::by_realtime(&self.image, realtime).expect("it opens");
        let (seconds, micros) = (realtime / 1_000_000, realtime % 1_000_000);
        let argument = format!("--since=@{seconds}.{micros:06}");
        self.same(&argument, |offset| {
            first.is_some_and(|first| offset >= first)
        })
    }

    /// `--cursor=`: the entries from the one with a sequence number on.
    fn from_cursor(&self, seqnum: u64) -> usize {
        let first = wrapper::by_seqnum(&self.image, seqnum).expect("it opens");
        let first = first.expect("an entry");
        let mut entries = self.shown.iter();
        let (_, entry) = entries
            .find(|(offset, _)| *offset == first)
            .expect("it is there");
        let cursor = entry.head[0].strip_prefix("__CURSOR=").expect("a cursor");
        self.same(&format!("--cursor={cursor}"), |offset| offset >= first)
    }
}

#[test]
fn lookups() {
    for cells in CELLS {
        for (header_size, keyed) in [(256, 0), (256, 1), (272, 1)] {
            let random = &mut Random::new(200 + cells.0 + keyed);
            let both = Both::new(grown(header_size, random, cells, keyed, 120));

            assert_eq!(both.held("CONTROLLER=chamber-1"), 120);
            assert_eq!(both.held("MESSAGE=germination test 77 counted"), 1);
            assert_eq!(both.held("STATE=lost"), 0);
            let states = ["STATE=sown", "STATE=wet", "STATE=dead"];
            assert_eq!(states.iter().map(|it| both.held(it)).sum::<usize>(), 120);
            let lots = (0..40).map(|lot| both.held(&format!("LOT={lot}")));
            assert_eq!(lots.sum::<usize>(), 120);

            assert_eq!(both.values("CONTROLLER"), 1);
            assert_eq!(both.values("STATE"), 3);
            assert_eq!(both.values("MESSAGE"), 120);
            assert!(both.values("SAMPLE") > 20);
            assert_eq!(both.values("PRIORITY"), 0);
            let names = String::from_utf8(both.file.prints(&["--fields"])).expect("text");
            let mut names: Vec<&str> = names.lines().collect();
            names.sort();
            assert_eq!(names, ["CONTROLLER", "LOT", "MESSAGE", "SAMPLE", "STATE"]);

            let realtime = |n: u64| nth(n).realtime;
            assert_eq!(both.since(1), 120);
            assert_eq!(both.since(realtime(1)), 120);
            assert_eq!(both.since(realtime(60)), 61);
            assert_eq!(both.since(realtime(60) + 1), 60);
            assert_eq!(both.since(realtime(120)), 1);
            assert_eq!(both.since(realtime(120) + 1), 0);
            for seqnum in [1, 2, 59, 60, 61, 119, 120] {
                assert_eq!(both.from_cursor(seqnum), 121 - seqnum as usize);
            }
        }
    }
}
