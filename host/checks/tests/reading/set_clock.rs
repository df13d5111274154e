//! The reading of files whose clock was set, by examples: they open, a search by time takes the first
//! in order, and an append may be stamped before the last entry.
use checks::generator::set_clock::{around, fields, first_from, series, PLAIN};
use reading::image::le64;
use reading::layout::{entry, header};
use reading::lookup::{open, Journal};
use reading::plan::plan;
use reading::refusal::clauses;

fn opened(image: &[u8]) -> Journal<'_> {
    open(image).unwrap_or_else(|_| panic!("refused: {:?}", clauses(image)))
}

/// "A time lookup stays the first entry in sequence order at or after t".
#[test]
fn the_first_in_order() {
    let times = [10, 20, 30, 4, 5, 15, 31];
    let image = PLAIN.file(&times);
    let journal = opened(&image);
    let found = |t: u64| {
        let place = |offset| journal.committed.iter().position(|&it| it == offset);
        journal.first_realtime(t).and_then(place)
    };
    let places = [
        (0, Some(0)),
        // 4 and 5 stand later in the file.
        (4, Some(0)),
        (5, Some(0)),
        (10, Some(0)),
        // 15 is nearer.
        (11, Some(1)),
        (15, Some(1)),
        (20, Some(1)),
        (21, Some(2)),
        (30, Some(2)),
        (31, Some(6)),
        (32, None),
        (u64::MAX, None),
    ];
    for (t, place) in places {
        assert_eq!(found(t), place, "{t}");
    }
}

/// Each entry of each series, in order, and every search.
#[test]
fn every_series() {
    for (what, times) in series() {
        let image = PLAIN.file(&times);
        let journal = opened(&image);
        let word = |&offset: &u64| journal.image.word(offset + entry::REALTIME);
        assert!(
            journal.committed.iter().map(word).eq(times.clone()),
            "{what}"
        );
        for t in around(&times) {
            let place = first_from(&times, t).map(|place| journal.committed[place]);
            assert_eq!(journal.first_realtime(t), place, "{what}: {t}");
        }
        // "head and tail realtime": of the first and the last entry.
        let ends = [header::HEAD_ENTRY_REALTIME, header::TAIL_ENTRY_REALTIME];
        let ends = ends.map(|at| le64(&image, at));
        assert_eq!(ends, [times[0], times[times.len() - 1]], "{what}");
    }
}

/// "Sequence numbers and monotonic times keep their rules": 17 of them, and of no wall time.
#[test]
fn stamps_of_an_append() {
    let image = PLAIN.file(&[50, 1, 60]);
    let fields = fields(0);
    let number = |seqnum: u64, realtime: u64, monotonic: u64, boot: u8| {
        let mut ask = PLAIN.request(&fields, 0, realtime);
        (ask.seqnum, ask.monotonic) = (seqnum, monotonic);
        ask.boot_id = [boot; 16];
        plan(&image, &ask).map_or_else(|found| found[0].number, |_| 0)
    };
    // The last entry is 5, at monotonic time 5 of boot 5.
    for realtime in [0, 1, 49, 59, 60, 61, 1 << 63, u64::MAX] {
        assert_eq!(number(6, realtime, 5, 5), 0, "{realtime}");
        assert_eq!(number(6, realtime, 4, 6), 0, "{realtime}");
        assert_eq!(number(6, realtime, 4, 5), 17, "{realtime}");
        assert_eq!(number(5, realtime, 5, 5), 17, "{realtime}");
        assert_eq!(number(0, realtime, 5, 5), 17, "{realtime}");
    }
}
