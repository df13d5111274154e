//! Every cut of an append, and of a batch: between the store that lets the new ENTRY be walked and the
//! commit store the file is 14 here, and at every other cut both readers answer alike.
use super::asking::Tried;
use checks::generator::questions::Arguments;
use checks::generator::{appends, batches};
use checks::random::Random;
use reading::carry::stores;
use reading::layout::header;
use reading::lookup::open;
use wrapper::{raw, Request};

/// The image with the first k stores of a list carried out by the archive.
fn cut(image: &[u8], list: &[u8], k: u64) -> Vec<u8> {
    let mut image = image.to_vec();
    assert_eq!(raw::carry_out(&mut image, list, k), 0);
    image
}

/// Cuts a list everywhere and asks one question in `step`, with the arguments from before and after.
fn cuts(tried: &mut Tried, image: &[u8], list: &[u8], step: usize) {
    let stores = stores(list);
    let count = stores.len() as u64;
    let after = cut(image, list, count);
    let mut more = Arguments::default();
    more.add(&open(image).expect("it takes the append"));
    more.add(&open(&after).expect("all of it is carried out"));
    for k in 0..=count {
        let arrived = |at: u64| {
            let of_it = stores[..k as usize].iter().filter(|it| it.offset == at);
            of_it.count()
        };
        let walked = arrived(header::TAIL_OBJECT_OFFSET);
        let number = match walked > arrived(header::N_ENTRIES) {
            true => 14,
            false => 0,
        };
        let cut = cut(image, list, k);
        assert_eq!(tried.with(&cut, &more, step), number, "at {k} of {count}");
    }
}

/// Of each append that the archive takes, by its own list of stores.
#[test]
fn of_an_append() {
    let mut tried = Tried::default();
    let mut taken = 0;
    for seed in 0..90 {
        let case = appends::good(&mut Random::new(seed + 70_000));
        let asked = &case.asked;
        let request = Request {
            machine: &asked.machine_id,
            boot: &asked.boot_id,
            seqnum: asked.seqnum,
            realtime: asked.realtime,
            monotonic: asked.monotonic,
            fields: &asked.fields,
        };
        if let Ok(list) = wrapper::stores(&case.image, &request) {
            cuts(&mut tried, &case.image, &list, 41);
            taken += 1;
        }
    }
    println!("{taken} appends");
    tried.print("every cut of an append");
    tried.covers();
    let [read, only_14, below] = tried.sorts();
    assert!(taken > 50 && read > 1_000 && only_14 > 500 && below == 0);
}

#[test]
fn of_a_batch() {
    let mut tried = Tried::default();
    let mut taken = 0;
    for seed in 0..25 {
        let case = batches::good(&mut Random::new(seed + 71_000));
        let batch = case.entries();
        if let Ok(list) = wrapper::stores_batch(&case.image, &case.machine_id, &batch) {
            cuts(&mut tried, &case.image, &list, 173);
            taken += 1;
        }
    }
    println!("{taken} batches");
    tried.print("every cut of a batch");
    tried.covers();
    let [read, only_14, below] = tried.sorts();
    assert!(taken > 10 && read > 500 && only_14 > 200 && below == 0);
}
