//! The two appends of the rules' worked examples as one batch.
use checks::against::batch::Batch;
use checks::against::plan::Append;
use checks::generator::worked::{first, request, second, LAST};
use reading::batch::{packed, Answer};
use reading::carry::stores;
use reading::layout::{header, Layout};
use wrapper::raw;

use crate::made::{made, Tried, MACHINE};

/// The stores of each append, the sync points of the batch, and where the second ENTRY stands.
type Example = (usize, usize, [usize; 11], u64);

/// In a header of 272 group 6 has two stores more; in a compact file the objects are shorter, and the
/// second append has a tail word in group 5.
const EXAMPLES: [(Layout, u64, Example); 4] = [
    (
        Layout::Regular,
        256,
        (72, 33, [53, 58, 63, 70, 71, 88, 93, 95, 101, 102, 103], 736),
    ),
    (
        Layout::Regular,
        272,
        (74, 35, [53, 58, 63, 72, 73, 90, 95, 97, 105, 106, 107], 752),
    ),
    (
        Layout::Compact,
        256,
        (69, 31, [50, 55, 60, 67, 68, 82, 87, 89, 96, 97, 98], 712),
    ),
    (
        Layout::Compact,
        272,
        (71, 33, [50, 55, 60, 69, 70, 84, 89, 91, 100, 101, 102], 728),
    ),
];

#[test]
fn worked_examples() {
    let mut tried = Tried::default();
    for (layout, header_size, (of_first, of_second, points, entry)) in EXAMPLES {
        for keyed in [false, true] {
            let image = made((layout, header_size, keyed), 4_096, 1);
            let (first, second) = (first(), second());
            let asked = [
                request(&first, LAST, 1700000000000000, 50),
                request(&second, LAST + 1, 1700000000000001, 60),
            ];
            let entries = packed(&asked);
            assert_eq!(entries.len(), 2 * 44 + first.len() + second.len());
            let batch = Batch::new(&image, MACHINE, &entries);
            // Group 1 once, and group 8 once.
            let count = of_first + of_second - 2;
            let (answer, list) = tried.with_list(&batch, 16 * count);
            let stores = stores(&list);
            assert_eq!(
                answer,
                Answer {
                    refusal: 0,
                    index: 0,
                    stores: count as u64
                }
            );
            assert_eq!(batch.read.expect("taken").sync_points(), points);
            // The commit store is the last but one of an append.
            let commits = (0..count).filter(|&n| stores[n].offset == header::N_ENTRIES);
            assert!(commits.eq([of_first - 2, count - 2]));
            assert_eq!(stores[of_first - 1].offset, entry);

            // One by one, by the archive's plan.
            let mut file = image.clone();
            let mut one_by_one = Vec::new();
            for ask in asked {
                let append = Append::new(&file, ask);
                let need = append.need().expect("taken");
                let (_, list) = append.put(16 * need, 0).expect("no difference");
                assert_eq!(raw::carry_out(&mut file, &list, need as u64), 0);
                one_by_one.push(list);
            }
            let [one, two] = &one_by_one[..] else {
                panic!("two appends");
            };
            assert!(list == [&one[..one.len() - 16], &two[16..]].concat());
            let mut after = image.clone();
            assert_eq!(raw::carry_out(&mut after, &list, count as u64), 0);
            assert!(after == file);
        }
    }
}

/// The first append needs 416 bytes, the second 136; in a compact file 392 and 112.
#[test]
fn arenas_that_just_hold_them() {
    let mut tried = Tried::default();
    for (layout, header_size, (of_first, of_second, _, entry)) in EXAMPLES {
        let (first, second) = (first(), second());
        let asked = [request(&first, 1, 0, 0), request(&second, 2, 0, 0)];
        let entries = packed(&asked);
        let last = match layout {
            Layout::Regular => 136,
            Layout::Compact => 112,
        };
        let need = (of_first + of_second - 2) as u64;
        for (length, answer) in [
            (entry + last, (0, 0, need)),
            (entry + last - 8, (18, 1, 0)),
            (entry, (18, 1, 0)),
            (entry - 8, (18, 0, 0)),
        ] {
            let image = made((layout, header_size, true), length as usize, 1);
            let (refusal, index, stores) = answer;
            let answer = Answer {
                refusal,
                index,
                stores,
            };
            assert_eq!(tried.batch(&image, MACHINE, &entries), answer, "{length}");
        }
    }
}
