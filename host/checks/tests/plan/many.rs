//! Appends of every kind, by the thousand, and what was special about those that were taken.
use std::collections::BTreeMap;

use checks::against::plan::Append;
use checks::generator::worked::request;
use checks::generator::{appends, grown, requests};
use checks::random::Random;
use reading::image::{arena_end, le64, name_of, Image};
use reading::layout::{header, Layout};
use reading::refusal::{refusal, APPEND_ORDER};
use reading::request::{distinct, unpacked, Request};
use reading::room::{places, Placed, Slot};
use wrapper::{carry_out, plan, Planned};

use crate::made::{fields, made_in, Tried, BOOT, MACHINE};

/// What is special about an append that is taken.
fn special(image: &[u8], request: &Request) -> Vec<&'static str> {
    let all = unpacked(request.fields).expect("taken");
    let payloads = distinct(&all);
    let words = Image::walked(image);
    let places = places(&words, &payloads);
    let mut seen = Vec::new();
    let mut see = |is: bool, what: &'static str| {
        if is {
            seen.push(what);
        }
    };
    let late = le64(image, header::HEADER_SIZE) == 272;
    let boot_bit = image[header::COMPATIBLE_FLAGS as usize] == 2;
    see(!late, "a header of 256");
    see(late && !boot_bit, "a header of 272");
    see(late && boot_bit, "a header of 272 with compatible bit 1");
    let keyed = image[header::INCOMPATIBLE_FLAGS as usize] & 4 != 0;
    let compact = words.layout == Layout::Compact;
    see(!compact, "regular");
    see(compact, "compact");
    see(keyed, "keyed");
    see(!keyed, "not keyed");
    let first = le64(image, header::N_ENTRIES) == 0;
    see(first, "a first entry");
    see(!first, "a later entry");
    let earlier = request.realtime < le64(image, header::TAIL_ENTRY_REALTIME);
    see(earlier, "a wall time before the last entry's");
    see(all.len() > payloads.len(), "a repeat");
    let value = |it: &[u8]| it.len() - name_of(it).expect("taken").len() - 1;
    see(payloads.iter().any(|it| value(it) == 0), "an empty value");
    see(request.seqnum >= 1 << 63, "a seqnum from 2^63 on");
    see(request.seqnum == u64::MAX, "a seqnum of 2^64 - 1");
    see(
        places.end == arena_end(image),
        "objects up to the arena's end",
    );

    let cells = le64(image, header::DATA_HASH_TABLE_SIZE) / 16;
    let cell = |it: &Placed| words.hash(it.payload) % cells;
    let new: Vec<&Placed> = places.payloads.iter().filter(|it| it.is_new).collect();
    let with_new_name = |it: &Placed| {
        let mut others = new.iter();
        others.any(|other| other.field_is_new && other.name == it.name)
    };
    for (n, one) in new.iter().enumerate() {
        let mut before = new[..n].iter();
        let same_cell = before.any(|other| cell(other) == cell(one));
        see(same_cell, "several new payloads in one cell");
        see(
            !one.field_is_new && with_new_name(one),
            "several with one new name",
        );
        see(!with_new_name(one), "a new payload of an old name");
    }
    see(new.is_empty(), "no new payload");

    let mut slots = vec![(places.global, true)];
    slots.extend(places.lists.iter().map(|&(_, slot)| (slot, false)));
    for (slot, global) in slots {
        match slot {
            Slot::Inline => see(true, "an old DATA of count 0"),
            Slot::Spare(at) => {
                let same = words.item(at) == places.entry;
                see(!same && global, "a spare item of the header's chain");
                see(!same && !global, "a spare item of a DATA's chain");
                see(
                    same && global,
                    "a spare item of the header's with the offset",
                );
                see(same && !global, "a spare item of a DATA's with the offset");
                see(words.item(at) != 0, "a spare item that holds something");
            }
            Slot::Array { items, .. } => {
                see(items == 4 && global, "a first array of the header's chain");
                see(items == 4 && !global, "a first array of a DATA's chain");
                see(items != 4 && global, "a later array of the header's chain");
                see(items != 4 && !global, "a later array of a DATA's chain");
            }
        }
    }
    let is_array = |(_, slot): &&(u64, Slot)| matches!(slot, Slot::Array { .. });
    let arrays = places.lists.iter().filter(is_array).count();
    see(arrays > 1, "several new arrays of DATA");
    seen.sort();
    seen.dedup();
    seen
}

/// What `special` can say.
const KINDS: usize = 30;

#[test]
fn appends_of_every_kind() {
    let mut tried = Tried::default();
    let mut seen: BTreeMap<&'static str, u64> = BTreeMap::new();
    for seed in 0..12_000 {
        let random = &mut Random::new(seed + 40_000_000);
        let mut case = appends::any(random);
        if seed % 5 == 0 {
            // The last numbers there are, which leave room for no other.
            case.asked.seqnum = u64::MAX;
        }
        let request = case.asked.request();
        let append = Append::new(&case.image, request);
        let number = match seed % 2 {
            0 => tried.whole(&append),
            _ => tried.with_list(&append, case.list).0,
        };
        if number == 0 {
            for what in special(&case.image, &request) {
                *seen.entry(what).or_default() += 1;
            }
        }
    }
    tried.print("appends of every kind");
    for (what, n) in &seen {
        println!("{n:>6}  {what}");
    }
    assert_eq!(seen.len(), KINDS, "some kind of append was not seen");
    assert!(tried.0[0] > 2_000);
    assert!(APPEND_ORDER.iter().all(|&it| tried.0[it as usize] > 20));
}

/// Files that the archive makes and writes: every append is compared, and then carried out.
#[test]
fn files_that_grow() {
    let mut tried = Tried::default();
    let mut appends = 0;
    for seed in 0..120 {
        let random = &mut Random::new(seed + 50_000_000);
        let mut image = match seed % 3 {
            0 => grown::grown(random, 4),
            it => {
                let length = 3_000 + 8 * random.below(2_000);
                let layout = Layout::BOTH[seed as usize / 2 % 2];
                let header_size = [256, 272][it as usize - 1];
                made_in(layout, header_size, length, (3, 2), seed % 2 == 0)
            }
        };
        for _ in 0..25 {
            let mut asked = requests::fitting(random, &image);
            if random.below(2) == 0 && seed % 3 != 0 {
                (asked.machine_id, asked.boot_id) = (MACHINE, BOOT);
            }
            let append = Append::new(&image, asked.request());
            let Some(need) = append.need() else {
                tried.whole(&append);
                continue;
            };
            let (number, list) = tried.with_list(&append, 16 * need + random.below(40));
            assert_eq!(number, 0);
            assert_eq!(carry_out(&mut image, &list, need as u64), Ok(()));
            appends += 1;
        }
    }
    tried.print("files that grow");
    assert!(appends > 800, "{appends}");
}

/// A longer file of the archive alone, compared with the reading now and then.
#[test]
fn a_file_of_many_entries() {
    let mut tried = Tried::default();
    for (layout, header_size, keyed) in
        [(Layout::Regular, 256, false), (Layout::Compact, 272, true)]
    {
        let random = &mut Random::new(60_000_000);
        let mut image = made_in(layout, header_size, 200_000, (50, 7), keyed);
        let mut list = vec![0; 16 * 1_000];
        for n in 1..=400 {
            let payloads = [
                format!("LOT={}", random.below(90)),
                format!("STATE={}", random.below(4)),
                format!("MESSAGE=germination test {n} counted"),
                format!("OPERATOR={}", random.below(9)),
            ];
            let fields = fields(&payloads.map(String::into_bytes));
            if n % 40 == 0 {
                assert_eq!(tried.append(&image, request(&fields, n, n, n)), 0);
            }
            let ask = wrapper::Request {
                machine: &MACHINE,
                boot: &BOOT,
                seqnum: n,
                realtime: n,
                monotonic: n,
                fields: &fields,
            };
            let Planned::Stores { count } = plan(&image, &ask, &mut list) else {
                panic!("the append is taken");
            };
            assert_eq!(carry_out(&mut image, &list, count), Ok(()));
        }
        assert_eq!(refusal(&image), 0);
        assert_eq!(le64(&image, header::N_ENTRIES), 400);
    }
    tried.print("a file of many entries");
}
