//! Two files as one stream, by the archive and by `journalctl --file=A --file=B`.
//!
//! journalctl compares the two next entries as the archive does, and shows equal ones once. Its stream
//! is not the archive's, and so not compared here,
//!
//! - where two next entries are not equal, but compare as neither earlier nor later, as do those that
//!   differ in the seqnum id alone: the archive shows both, the first file's first; journalctl passes
//!   over what is not later than the entry that it showed last, and so shows one of them;
//! - in newer versions, where entries are of two seqnum ids and two boots: these put boots in an order
//!   of their own before they look at wall times.
use crate::entries::logged;
use crate::export::{looked_up, parsed, Entry};
use crate::file::File;
use crate::written::{append, new, nth, At};
use checks::corpus;
use checks::random::Random;
use reading::layout::header;

/// Stamps and payloads of entries.
pub type Logged = Vec<(At, Vec<Vec<u8>>)>;

/// A file under a seqnum id.
pub fn file(seqnum_id: u8, keyed: u64, entries: &Logged) -> Vec<u8> {
    let mut image = new(65_536, (7, 3), keyed);
    image[header::SEQNUM_ID as usize..][..16].fill(seqnum_id);
    for (at, payloads) in entries {
        append(&mut image, *at, payloads);
    }
    image
}

/// The stream by the archive, and by journalctl.
pub fn both(first: &[u8], second: &[u8]) -> [Vec<Entry>; 2] {
    let all = wrapper::all_merged(first, second).expect("both open");
    let shown = all
        .iter()
        .map(|(which, entry)| looked_up(which.of(first, second), entry.offset));
    let [one, other] = [first, second].map(File::new);
    let exported = parsed(&one.prints_with(&other, &["--output=export"]));
    [shown.collect(), exported]
}

/// Both show the same; how many entries.
pub fn same(first: &[u8], second: &[u8]) -> usize {
    let [shown, exported] = both(first, second);
    assert!(exported == shown, "journalctl shows another stream");
    shown.len()
}

/// Sixty entries, each in the first file, in the second or in both.
fn shared(random: &mut Random, at: fn(u64) -> At) -> [Logged; 2] {
    let mut files = [Logged::new(), Logged::new()];
    for n in 1..=60 {
        let entry = (at(n), logged(random, n));
        let places = [&[0][..], &[1], &[0, 1]][random.below(3)];
        for &place in places {
            files[place].push(entry.clone());
        }
    }
    files
}

/// By sequence number, and each entry that both have once; also where times and boots go another
/// way than the numbers do.
#[test]
fn of_one_seqnum_id() {
    let boots: fn(u64) -> At = |n| At {
        boot: [n as u8 % 3 + 5; 16],
        ..nth(n)
    };
    for at in [nth, boots] {
        for keyed in [0, 1] {
            let random = &mut Random::new(400 + keyed);
            let [first, second] = shared(random, at);
            let [first, second] = [file(4, keyed, &first), file(4, 0, &second)];
            assert_eq!(same(&first, &second), 60);
            assert_eq!(same(&second, &first), 60);
            let alone = wrapper::all_entries(&first).expect("it opens");
            assert_eq!(same(&first, &first), alone.len());
        }
    }
    // The second file's numbers are higher, and its times are lower.
    let random = &mut Random::new(402);
    let mut later = |seqnum: u64, time: u64| {
        let entry = |n| {
            let at = At {
                seqnum: seqnum + n,
                ..nth(time + n)
            };
            (at, logged(random, n))
        };
        (1..20).map(entry).collect::<Logged>()
    };
    let [first, second] = [file(4, 0, &later(0, 50)), file(4, 1, &later(100, 0))];
    assert_eq!(same(&first, &second), 38);
    assert_eq!(same(&second, &first), 38);
}

/// Of one boot by monotonic time, whatever the numbers and wall times say.
#[test]
fn of_one_boot() {
    let random = &mut Random::new(410);
    let mut files = [Logged::new(), Logged::new()];
    for n in 1..=60 {
        let place = random.below(2);
        let at = At {
            seqnum: n + 1_000 * place as u64,
            realtime: nth(n).realtime + 70_000 * place as u64,
            ..nth(n)
        };
        files[place].push((at, logged(random, n)));
    }
    let [first, second] = [file(4, 1, &files[0]), file(6, 0, &files[1])];
    assert_eq!(same(&first, &second), 60);
    assert_eq!(same(&second, &first), 60);
}

/// Files of journald of one boot: one and its archive under one seqnum id, the others under two.
#[test]
fn files_of_journald() {
    let [k0, online, archived, sealed] = [
        "bullseye-k0-c0-system",
        "bullseye-k1-c0-online",
        "bullseye-k1-c0-system-archived",
        "sealed-bullseye-c0-system",
    ]
    .map(corpus::image);
    assert_eq!(same(&online, &archived), 37);
    assert_eq!(same(&online, &k0), 40);
    assert_eq!(same(&sealed, &online), 40);
    assert_eq!(same(&k0, &sealed), 6);
}
