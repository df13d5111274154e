//! Every cut of many appends: "A cut at k, from 0 to the count, leaves the image on which the
//! append was worked out, with the first k stores of its list carried out, each whole, and
//! every other byte as it was." Before the commit store all answers are the old ones, from it on
//! the new ones.
use checks::generator::{appends, grown::grown, questions::Arguments, requests};
use checks::random::Random;
use reading::carry::{carry_out, Store};
use reading::image::{Image, Object};
use reading::layout::{header, kind};
use reading::lookup::{open, Journal, Part};
use reading::plan::{append, plan};
use reading::refusal::clauses;
use reading::request::{distinct, unpacked};

/// All answers at all arguments, each list whole, payloads with their bytes.
#[derive(PartialEq, Debug)]
struct Answers {
    committed: Vec<u64>,
    found: Vec<Option<u64>>,
    items: Vec<Vec<(Part, Vec<u8>)>>,
    holding: Vec<Vec<u64>>,
    payloads: Vec<Vec<(Part, Vec<u8>)>>,
}

fn answers(journal: &Journal, arguments: &Arguments) -> Answers {
    let bytes = journal.image.bytes;
    let with_bytes = |part: Part| (part, part.of(bytes).to_vec());
    let seqnums = arguments
        .seqnums
        .iter()
        .map(|&seqnum| journal.first_seqnum(seqnum));
    let realtimes = arguments
        .realtimes
        .iter()
        .map(|&realtime| journal.first_realtime(realtime));
    let items = |&offset: &u64| {
        let mut items = Vec::new();
        while let Some(part) = journal.item(offset, items.len() as u64) {
            items.push(with_bytes(part));
        }
        items
    };
    let payloads = |name: &Vec<u8>| journal.payloads(name).into_iter().map(with_bytes).collect();
    Answers {
        committed: journal.committed.clone(),
        found: seqnums.chain(realtimes).collect(),
        items: arguments.offsets.iter().map(items).collect(),
        holding: arguments
            .payloads
            .iter()
            .map(|payload| journal.entries_holding(payload))
            .collect(),
        payloads: arguments.names.iter().map(payloads).collect(),
    }
}

fn opened(bytes: &[u8]) -> Journal<'_> {
    open(bytes).unwrap_or_else(|number| panic!("refused {number}: {:?}", clauses(bytes)))
}

/// The DATA walked before the append, with their payloads.
fn earlier(bytes: &[u8]) -> Vec<(Object, Vec<u8>)> {
    let image = Image::walked(bytes);
    image
        .of_kind(kind::DATA)
        .iter()
        .map(|object| (*object, image.payload(object).to_vec()))
        .collect()
}

/// Checks all cuts of an append that is taken; the image after it and the number of cuts.
fn check(image: &[u8], asked: &requests::Asked) -> Option<(Vec<u8>, u64)> {
    let stores = plan(image, &asked.request()).ok()?;
    let mut list = vec![0; 16 * stores.len()];
    assert_eq!(append(image, &asked.request(), &mut list).refusal, 0);
    let mut after = image.to_vec();
    assert_eq!(carry_out(&mut after, &list, stores.len() as u64), 0);

    let mut arguments = Arguments::default();
    arguments.add(&opened(image));
    arguments.add(&opened(&after));
    let old = answers(&opened(image), &arguments);
    let new = answers(&opened(&after), &arguments);
    the_new_entry(&old, &new, asked, &arguments);

    let commit = stores
        .iter()
        .position(|store| store.offset == header::N_ENTRIES)
        .expect("a commit store");
    assert_eq!(commit, stores.len() - 2);
    let kept = earlier(image);
    let mut cut = image.to_vec();
    for k in 0..=stores.len() {
        if k > 0 {
            one_store(&mut cut, &list, k, stores[k - 1]);
        }
        let journal = opened(&cut);
        let expected = if k <= commit { &old } else { &new };
        assert_eq!(
            &answers(&journal, &arguments),
            expected,
            "cut at {k} of {}",
            stores.len()
        );
        for (object, payload) in &kept {
            assert_eq!(journal.image.object_at(object.offset), Some(*object));
            assert_eq!(journal.image.payload(object), &payload[..]);
        }
    }
    assert_eq!(cut, after);
    Some((after, stores.len() as u64 + 1))
}

/// The k-th store changes its one word and no other byte.
fn one_store(cut: &mut Vec<u8>, list: &[u8], k: usize, store: Store) {
    let before = cut.clone();
    assert_eq!(carry_out(cut, &list[16 * (k - 1)..], 1), 0);
    let at = store.offset as usize;
    assert_eq!(cut[..at], before[..at]);
    assert_eq!(cut[at..at + 8], store.value.to_le_bytes());
    assert_eq!(cut[at + 8..], before[at + 8..]);
}

/// After the append there is one entry more, with the asked payloads.
fn the_new_entry(old: &Answers, new: &Answers, asked: &requests::Asked, arguments: &Arguments) {
    let (last, rest) = new.committed.split_last().expect("an entry");
    assert_eq!(rest, &old.committed[..]);
    let place = arguments
        .offsets
        .iter()
        .position(|offset| offset == last)
        .expect("asked");
    let mut items: Vec<&[u8]> = new.items[place]
        .iter()
        .map(|(_, bytes)| &bytes[..])
        .collect();
    let mut payloads = distinct(&unpacked(&asked.fields).expect("packed"));
    items.sort();
    payloads.sort();
    assert_eq!(items, payloads);
}

#[test]
fn every_cut_of_one_append() {
    let (mut taken, mut cuts) = (0, 0);
    for seed in 0..4_000 {
        let case = appends::good(&mut Random::new(seed));
        if let Some((_, count)) = check(&case.image, &case.asked) {
            (taken, cuts) = (taken + 1, cuts + count);
        }
    }
    println!("{taken} appends, {cuts} cuts");
    assert!(taken > 2_000);
}

#[test]
fn every_cut_of_appends_one_after_another() {
    let (mut taken, mut cuts) = (0, 0);
    for seed in 0..250 {
        let random = &mut Random::new(seed + 77_000);
        let mut image = if seed % 2 == 0 {
            appends::good(random).image
        } else {
            grown(random, 2)
        };
        for _ in 0..8 {
            let asked = requests::fitting(random, &image);
            if let Some((after, count)) = check(&image, &asked) {
                (taken, cuts) = (taken + 1, cuts + count);
                image = after;
            }
        }
    }
    println!("{taken} appends, {cuts} cuts");
    assert!(taken > 400);
}
