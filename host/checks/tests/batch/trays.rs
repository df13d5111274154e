//! Files that the archive makes and writes batch by batch.
use checks::against::batch::Batch;
use checks::generator::batches::{fitting_entries, Case};
use checks::generator::worked::request;
use checks::random::Random;
use reading::batch::packed;
use reading::request::Request;
use wrapper::raw;

use crate::made::{fields, made, Tried, MACHINE, WRITTEN};

/// Files that grow by batches, until one is full.
#[test]
fn files_that_grow() {
    let mut tried = Tried::default();
    let mut entries = 0;
    for (n, kind) in WRITTEN.into_iter().enumerate() {
        let random = &mut Random::new(n as u64 + 69_000);
        let mut image = made(kind, 9_000, 1 + n as u64 % 3);
        for _ in 0..12 {
            let most = random.below(8) + 1;
            let asked = fitting_entries(random, &image, most);
            if asked.is_empty() {
                break;
            }
            let case = Case {
                image,
                machine_id: MACHINE,
                asked,
            };
            let buffer = case.entries();
            let batch = Batch::new(&case.image, MACHINE, &buffer);
            let need = batch.need().expect("taken");
            let (_, list) = tried.with_list(&batch, 16 * need + random.below(30));
            image = case.image.clone();
            assert_eq!(raw::carry_out(&mut image, &list, need as u64), 0);
            entries += case.asked.len();
        }
    }
    tried.print("files that grow by batches");
    assert!(tried.0[0] > 20 && entries > 60, "{entries} entries");
}

/// 32 entries as a test tray has them, batch after batch, in all that is written.
#[test]
fn trays() {
    let mut tried = Tried::default();
    for kind in WRITTEN {
        let random = &mut Random::new(70_000);
        let mut image = made(kind, 60_000, 31);
        for tray in 0..3 {
            let packs: Vec<Vec<u8>> = (0..32)
                .map(|n| {
                    fields(&[
                        &format!("LOT={}", random.below(9)),
                        &format!("STATE={}", ["sown", "wet", "sprouted"][random.below(3)]),
                        &format!("MESSAGE=tray {tray}, cell {n} counted"),
                        &format!("OPERATOR={}", random.below(3)),
                    ])
                })
                .collect();
            let first = 32 * tray + 1;
            let asked = packs.iter().zip(first..);
            let asked: Vec<Request> = asked
                .map(|(it, n)| request(it, n, 1_700_000_000 - n, n))
                .collect();
            let buffer = packed(&asked);
            let batch = Batch::new(&image, MACHINE, &buffer);
            let need = batch.need().expect("taken");
            let (answer, list) = tried.with_list(&batch, 16 * need);
            assert_eq!(answer.stores, need as u64);
            assert_eq!(raw::carry_out(&mut image, &list, need as u64), 0);
            let entries = wrapper::all_entries(&image).expect("it opens");
            assert_eq!(entries.len() as u64, first + 31);
        }
    }
    tried.print("trays of 32 entries");
}
