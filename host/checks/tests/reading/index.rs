//! In every image that opens the tables and lists lead to the answers that a scan of the committed
//! entries gives.
use checks::generator::questions::Arguments;
use checks::generator::{good, grown, mutation};
use checks::random::Random;
use reading::ask::{ask, Answer};
use reading::committed::{counted, list};
use reading::index::{field_list, on_chain, Index};
use reading::lookup::{open, Journal, Part};

/// The lookups by the tables and lists, as a reader does them, against the scan.
fn by_index(journal: &Journal) {
    let image = &journal.image;
    let index = Index::of(image);
    let last = journal.committed.last().copied().unwrap_or(0);
    let mut arguments = Arguments::default();
    arguments.add(journal);
    for payload in &arguments.payloads {
        let found = on_chain(image, &index.data, payload);
        let entries = found.map_or(Vec::new(), |object| {
            list(&counted(image, object.offset).expect("opens"), last)
        });
        assert_eq!(entries, journal.entries_holding(payload));
    }
    for name in &arguments.names {
        let found = on_chain(image, &index.fields, name);
        let mut all = found.map_or(Vec::new(), |object| field_list(image, &object));
        all.retain(|object| !list(&counted(image, object.offset).expect("opens"), last).is_empty());
        let places: Vec<u64> = all
            .iter()
            .map(|object| object.offset + image.layout.payload())
            .collect();
        let scanned: Vec<u64> = journal
            .payloads(name)
            .iter()
            .map(|part| part.place)
            .collect();
        assert_eq!(places, scanned);
    }
    for question in arguments.questions(journal) {
        if let Answer::Shown(part) = ask(journal, &question) {
            assert!(
                part != Part::default() && part.place + part.length <= image.bytes.len() as u64
            );
        }
    }
}

#[test]
fn tables_and_lists_lead_to_the_scanned_answers() {
    let mut opened = 0;
    for seed in 0..30_000 {
        let random = &mut Random::new(seed + 500_000);
        let image = match seed % 10 {
            0 => good::good(random).image,
            1 => grown::grown(random, 5),
            _ => mutation::untargeted(random),
        };
        if let Ok(journal) = open(&image) {
            opened += 1;
            by_index(&journal);
        }
    }
    println!("{opened} images opened");
    assert!(opened > 5_000);
}
