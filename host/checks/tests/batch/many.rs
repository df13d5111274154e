//! Batches of every kind, by the thousand, and what was special about those that were taken.
use std::collections::BTreeMap;

use checks::against::batch::Batch;
use checks::generator::batches::any;
use checks::random::Random;
use reading::batch::requests;
use reading::image::{arena_end, le64, Image};
use reading::layout::{header, kind, Layout};
use reading::request::{distinct, unpacked};
use reading::room::{places, Places, Slot};

use crate::made::Tried;

/// What is special about a batch that is taken.
struct Special {
    seen: Vec<&'static str>,
    /// Where the objects of the batch begin: what stands from there on, an earlier entry brought.
    first: u64,
}

impl Special {
    fn see(&mut self, is: bool, what: &'static str) {
        if is {
            self.seen.push(what);
        }
    }

    fn of(image: &[u8], batch: &reading::batch::Batch, entries: &[u8]) -> Vec<&'static str> {
        let words = Image::walked(image);
        let mut special = Special {
            seen: Vec::new(),
            first: words.objects[words.objects.len() - 1].next() as u64,
        };
        special.of_file(&words);
        let requests = requests(entries, [0; 16]).expect("taken");
        special.see(requests.len() == 1, "one entry");
        special.see(requests.len() > 4, "more than four entries");
        for (file, request) in batch.files.iter().zip(&requests) {
            let file = Image::walked(file);
            let payloads = distinct(&unpacked(request.fields).expect("taken"));
            let places = places(&file, &payloads);
            special.of_payloads(&file, &places);
            special.of_lists(&places);
            special.see(
                places.end == arena_end(image),
                "objects up to the arena's end",
            );
        }
        let links = batch.groups.iter().filter(|(number, _)| *number == 4);
        for store in links.flat_map(|(_, group)| group) {
            let free = store.offset >= special.first;
            let there = le64(image, store.offset) == store.value;
            special.see(free && there, "a link that free bytes hold already");
        }
        let mut empty = batch.groups.iter().filter(|(number, _)| *number == 4);
        let empty = empty.any(|(_, group)| group.is_empty());
        special.see(empty, "an entry whose links are all there");
        special.seen
    }

    fn of_file(&mut self, words: &Image) {
        let late = words.header_size() == 272;
        let compact = words.layout == Layout::Compact;
        self.see(!late && !compact, "a header of 256, regular");
        self.see(late && !compact, "a header of 272, regular");
        self.see(!late && compact, "a header of 256, compact");
        self.see(late && compact, "a header of 272, compact");
        let first = words.word(header::N_ENTRIES) == 0;
        self.see(first, "on a file without entries");
    }

    fn of_payloads(&mut self, file: &Image, places: &Places) {
        let table = file.of_kind(kind::DATA_HASH_TABLE)[0];
        let cells = file.cells(&table);
        for one in &places.payloads {
            let earlier = (self.first..places.start).contains(&one.data);
            self.see(earlier, "a payload of an earlier entry");
            let named = (self.first..places.start).contains(&one.field);
            self.see(
                one.is_new && named,
                "a new payload of an earlier entry's name",
            );
            let cell = file.hash(one.payload) % cells.len() as u64;
            let behind = cells[cell as usize].1 >= self.first;
            self.see(one.is_new && behind, "in a cell behind an earlier entry's");
        }
        let new = places.payloads.iter().any(|one| one.is_new);
        self.see(!new, "an entry without a new payload");
    }

    fn of_lists(&mut self, places: &Places) {
        let mut slots = vec![(places.global, true)];
        slots.extend(places.lists.iter().map(|&(_, slot)| (slot, false)));
        for (slot, global) in slots {
            match slot {
                Slot::Inline => self.see(true, "an old DATA of count 0"),
                Slot::Spare(at) => {
                    let own = at >= self.first;
                    self.see(
                        own && global,
                        "an item of an earlier entry's array, the header's",
                    );
                    self.see(
                        own && !global,
                        "an item of an earlier entry's array, a DATA's",
                    );
                    self.see(!own, "a spare item of an old array");
                }
                Slot::Array { items, link, .. } => {
                    let own = link >= self.first && items > 4;
                    self.see(
                        own && global,
                        "an array behind an earlier entry's, the header's",
                    );
                    self.see(
                        own && !global,
                        "an array behind an earlier entry's, a DATA's",
                    );
                    let of_new = link >= self.first && items == 4;
                    self.see(of_new, "a first array of an earlier entry's DATA");
                    self.see(link < self.first, "an array linked from an old word");
                }
            }
        }
    }
}

/// What `Special` can say.
const KINDS: usize = 22;

#[test]
fn batches_of_every_kind() {
    let mut tried = Tried::default();
    let mut seen: BTreeMap<&'static str, u64> = BTreeMap::new();
    for seed in 0..1_500 {
        let random = &mut Random::new(seed + 68_000);
        let case = any(random);
        let entries = case.entries();
        let batch = Batch::new(&case.image, case.machine_id, &entries);
        tried.whole(&batch);
        if let Ok(read) = &batch.read {
            let mut special = Special::of(&case.image, read, &entries);
            special.sort();
            special.dedup();
            for what in special {
                *seen.entry(what).or_default() += 1;
            }
        }
    }
    tried.print("batches of every kind");
    for (what, n) in &seen {
        println!("{n:>6}  {what}");
    }
    assert_eq!(seen.len(), KINDS, "some kind of batch was not seen");
    assert!(seen.values().all(|&n| n > 3) && tried.0[0] > 600);
    assert!([16, 17, 18].iter().all(|&it| tried.0[it] > 20));
}
