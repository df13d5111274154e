//! What is written can be written to again: a new file opens, shows nothing and takes the first append,
//! and a file with an append takes the next one. None of 1 to 14 and 25 refuses it, whatever is asked.
use checks::against::plan::Append;
use checks::generator::dice::{once_in, pick};
use checks::generator::worked::request;
use checks::generator::{appends, requests};
use checks::random::Random;
use reading::layout::Layout;
use reading::request::Request;
use wrapper::{carry_out, open};

use crate::made::{fields, made_in, Tried};

/// It opens, and no lookup, page or list has anything.
fn shows_nothing(image: &[u8]) {
    assert_eq!(open(image), Ok(()));
    for number in [0, 1, u64::MAX] {
        assert_eq!(wrapper::entry(image, number), Ok(None));
        assert_eq!(wrapper::by_seqnum(image, number), Ok(None));
        assert_eq!(wrapper::by_realtime(image, number), Ok(None));
        assert_eq!(wrapper::by_payload(image, b"A=1", number), Ok(None));
        assert_eq!(wrapper::value(image, b"A", number), None);
        assert_eq!(wrapper::foreign(image, number), Ok(None));
    }
    assert_eq!(wrapper::all_entries(image), Ok(Vec::new()));
}

/// Whatever is asked, the answer is 0 or one of 15 to 19: right requests, wrong ones and any others,
/// with lists that are long enough and that are not.
fn takes_appends(tried: &mut Tried, image: &[u8], random: &mut Random) {
    let right = requests::fitting(random, image);
    let mut any = right.clone();
    requests::mutate(random, &mut any);
    let (right, any) = (right.request(), any.request());
    let mut machine_id = right.machine_id;
    machine_id[random.below(16)] ^= 1;
    let fields = &right.fields[1..];
    let seqnum = 0;
    for (ask, expected) in [
        // After the greatest number there is none.
        (right, &[0, 17, 18][..]),
        (any, &[0, 15, 16, 17, 18]),
        (
            Request {
                machine_id,
                ..right
            },
            &[15],
        ),
        (Request { fields, ..right }, &[16]),
        (Request { seqnum, ..right }, &[17]),
    ] {
        let append = Append::new(image, ask);
        let number = tried.whole(&append);
        assert!(expected.contains(&number), "{number}: {:?}", append.read);
        if number == 0 {
            assert_eq!(tried.with_list(&append, 15).0, 19);
        }
    }
}

/// Payloads that come again and again, and new ones.
fn some_payloads(random: &mut Random, n: u64) -> Vec<Vec<u8>> {
    let mut payloads = vec![format!("LOT={}", random.below(5))];
    for _ in 0..random.below(4) {
        let value = "x".repeat(random.below(40));
        payloads.push(pick(
            random,
            &[
                format!("STATE={}", n % 3),
                format!("N{n}={value}"),
                format!("MESSAGE={n} {value}"),
            ],
        ));
    }
    payloads.sort();
    payloads.dedup();
    payloads.into_iter().map(String::into_bytes).collect()
}

/// Appends to a new file until it is full, also for the least of them; the number of entries. What it
/// shows then is what was asked for, in its order.
fn until_full(tried: &mut Tried, mut image: Vec<u8>, random: &mut Random) -> u64 {
    shows_nothing(&image);
    let start = pick(random, &[0, (1 << 63) - 3]);
    let (mut shown, mut full) = (Vec::new(), false);
    for n in 1.. {
        if once_in(random, 3) {
            takes_appends(tried, &image, random);
        }
        // What fits last is an entry of one payload.
        let payloads = match full {
            false => some_payloads(random, n),
            true => vec![b"LOT=1".to_vec()],
        };
        let fields = fields(&payloads);
        let ask = request(&fields, start + n, random.word(), n);
        let append = Append::new(&image, ask);
        let Some(need) = append.need() else {
            assert_eq!(tried.whole(&append), 18);
            if full {
                break;
            }
            full = true;
            continue;
        };
        let (number, list) = tried.with_list(&append, 16 * need);
        assert_eq!((number, open(&image)), (0, Ok(())));
        assert_eq!(carry_out(&mut image, &list, need as u64), Ok(()));
        shown.push((start + n, ask.realtime, payloads));
    }
    let entries = wrapper::all_entries(&image).expect("it opens");
    assert_eq!(entries.len(), shown.len());
    for (entry, (seqnum, realtime, mut payloads)) in entries.iter().zip(shown) {
        assert_eq!((entry.seqnum, entry.realtime), (seqnum, realtime));
        let mut held = entry.payloads.clone();
        held.sort();
        payloads.sort();
        assert_eq!(held, payloads);
    }
    entries.len() as u64
}

/// Every length that one or two entries need, and longer ones; cells that few or many share.
#[test]
fn new_files_until_they_are_full() {
    let mut tried = Tried::default();
    let (mut files, mut entries, mut most) = (0, 0, 0);
    // Room beside the header.
    let every = (64..744).step_by(8).map(|room| (room, (1, 1)));
    let mut shapes: Vec<(usize, (u64, u64))> = every.collect();
    for cells in [(1, 1), (1, 9), (7, 1), (64, 40)] {
        let tables = 32 + 16 * (cells.0 + cells.1) as usize;
        shapes.extend([0, 8, 1_600, 3_000, 9_000, 20_000].map(|more| (tables + more, cells)));
    }
    shapes.push((1_074_944, (65_536, 1_024)));
    for (room, cells) in shapes {
        let (regular, compact) = (Layout::Regular, Layout::Compact);
        let kinds = [
            (regular, 256, false),
            (compact, 272, true),
            (regular, 272, true),
            (compact, 256, false),
        ];
        // The greatest tables take long.
        let kinds = &kinds[..if room > 100_000 { 2 } else { 4 }];
        for &(layout, header_size, keyed) in kinds {
            let random = &mut Random::new(room as u64);
            let length = header_size as usize + room;
            let image = made_in(layout, header_size, length, cells, keyed);
            let count = until_full(&mut tried, image, random);
            files += 1;
            entries += count;
            most = most.max(count);
        }
    }
    tried.print("new files until they are full");
    println!("{files} files, {entries} entries, up to {most} in one");
    assert_eq!(tried.0[1..15], [0; 14]);
    assert!(tried.0[15..20].iter().all(|&n| n > 100) && most > 70);
    assert_eq!(tried.0[25], 0);
}

/// Files of every kind, which no append made: with one they take the next.
#[test]
fn after_any_append() {
    let mut tried = Tried::default();
    let mut appended = 0;
    for seed in 0..500 {
        let random = &mut Random::new(seed + 35_000);
        let case = appends::good(random);
        let mut image = case.image;
        let append = Append::new(&image, case.asked.request());
        let Some(need) = append.need() else {
            continue;
        };
        let (_, list) = tried.with_list(&append, 16 * need);
        assert_eq!(carry_out(&mut image, &list, need as u64), Ok(()));
        takes_appends(&mut tried, &image, random);
        appended += 1;
    }
    tried.print("after any append");
    assert!(appended > 250 && tried.0[1..15] == [0; 14] && tried.0[25] == 0);
}
