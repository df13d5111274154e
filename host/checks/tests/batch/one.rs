//! A batch of one entry is the append: the same refusal, the same need, the same stores, byte for byte.
use checks::generator::{appends, grown, requests};
use checks::random::Random;
use reading::batch::packed;
use reading::refusal::APPEND_ORDER;
use reading::request::Request;
use wrapper::raw;

use crate::made::Tried;

/// Compares both calls with a list of so many bytes; the refusal.
fn same(tried: &mut Tried, image: &[u8], ask: Request, length: usize) -> u64 {
    let before = Random::new(tried.tried()).bytes(length);
    let (mut list, mut other) = (before.clone(), before);
    let entries = packed(&[ask]);
    let batch = raw::plan_batch(image, &ask.machine_id, &entries, &mut list);
    let request = wrapper::Request {
        machine: &ask.machine_id,
        boot: &ask.boot_id,
        seqnum: ask.seqnum,
        realtime: ask.realtime,
        monotonic: ask.monotonic,
        fields: ask.fields,
    };
    let plan = raw::plan(image, &request, &mut other);
    assert_eq!(batch.refusal + 256 * batch.stores, plan);
    assert_eq!(batch.index, 0);
    assert!(list == other, "the lists differ");
    tried.0[batch.refusal as usize] += 1;
    batch.refusal
}

#[test]
fn appends_of_every_kind() {
    let mut tried = Tried::default();
    for seed in 0..6_000 {
        let case = appends::any(&mut Random::new(seed + 60_000));
        let ask = case.asked.request();
        if same(&mut tried, &case.image, ask, case.list) == 0 {
            assert_eq!(same(&mut tried, &case.image, ask, 15), 19);
        }
    }
    tried.print("batches of one");
    assert!(tried.0[0] > 1_000);
    assert!(APPEND_ORDER.iter().all(|&it| tried.0[it as usize] > 10));
    assert_eq!(tried.0[22], 0);
}

/// Files that grow by batches of one.
#[test]
fn files_that_grow() {
    let mut tried = Tried::default();
    for seed in 0..60 {
        let random = &mut Random::new(seed + 61_000);
        let mut image = grown::grown(random, 2);
        for _ in 0..12 {
            let asked = requests::fitting(random, &image);
            let entries = packed(&[asked.request()]);
            if same(&mut tried, &image, asked.request(), 16 * 2_000) == 0 {
                let mut list = vec![0; 16 * 2_000];
                let answer = raw::plan_batch(&image, &asked.machine_id, &entries, &mut list);
                assert_eq!(raw::carry_out(&mut image, &list, answer.stores), 0);
            }
        }
    }
    tried.print("files that grow by batches of one");
    assert!(tried.0[0] > 200);
}
