//! A batch by the reading alone: the worked examples of the rules together, and refusals by hand.
use checks::generator::worked::{appended, first, made, request, second, LAST};
use reading::batch::{packed, plan, requests, write, Answer, Refused};
use reading::layout::header;
use reading::refusal::clause::*;

/// 72 stores and 33, less one of state 1 and one of state 0.
#[test]
fn two_appends() {
    for keyed in [0, 1] {
        let image = made(4096, keyed);
        let (first, second) = (first(), second());
        let asked = [
            request(&first, LAST, 1700000000000000, 50),
            request(&second, LAST + 1, 1700000000000001, 60),
        ];
        let batch = plan(&image, [2; 16], &packed(&asked)).expect("taken");
        let stores = batch.stores();
        assert_eq!(stores.len(), 103);
        let states = stores.iter().filter(|it| it.offset == header::STATE);
        assert!(states.map(|it| it.value).eq([1, 0]));
        for (n, count) in [(70, 1), (101, 2)] {
            assert_eq!(
                (stores[n].offset, stores[n].value),
                (header::N_ENTRIES, count)
            );
        }
        let numbers: Vec<u64> = batch.groups.iter().map(|(number, _)| *number).collect();
        assert_eq!(numbers, [1, 2, 3, 4, 5, 6, 7, 2, 3, 4, 5, 6, 7, 8]);
        // One by one.
        let mut file = image.clone();
        for (n, ask) in asked.iter().enumerate() {
            assert!(file == batch.files[n]);
            appended(&mut file, ask);
        }
        assert!(file == batch.files[2] && batch.files.len() == 3);
    }
}

#[test]
fn buffers() {
    let fields = second();
    let one = packed(&[request(&fields, 1, 2, 3)]);
    assert_eq!(one.len(), 44 + 14);
    assert_eq!(one[..24], [1u64, 2, 3].map(u64::to_le_bytes).concat());
    assert_eq!(one[24..44], [&[5; 16][..], &[14, 0, 0, 0]].concat());
    let found = |entries: &[u8]| requests(entries, [2; 16]).map(|all| all.len());
    assert_eq!(found(&[]), Err(vec![NO_ENTRIES]));
    assert_eq!(found(&one[..43]), Err(vec![STAMPS_CUT_SHORT]));
    assert_eq!(found(&one[..44]), Err(vec![FIELDS_CUT_SHORT]));
    assert_eq!(found(&one), Ok(1));
    assert_eq!(found(&one.repeat(32)), Ok(32));
    assert_eq!(found(&one.repeat(33)), Err(vec![ABOVE_32_ENTRIES]));
    assert_eq!(found(&[0; 88]), Ok(2));
}

/// The first bad entry by its index, whatever the numbers of the later ones; and 19 has the need.
#[test]
fn refusals() {
    let image = made(4096, 0);
    let fields = second();
    let good = |seqnum: u64| request(&fields, seqnum, 0, 0);
    let none = request(&[], 9, 0, 0);
    let put = |asked: &[_], length: usize| {
        let planned = plan(&image, [2; 16], &packed(asked));
        let found = planned.as_ref().err().map(|it: &Refused| it.found.clone());
        let mut list = vec![7; length];
        let answer = write(&planned, &mut list);
        assert!(answer.refusal == 0 || list.iter().all(|&byte| byte == 7));
        (answer, found)
    };
    let bad = |refusal: u64, index: u64| Answer {
        refusal,
        index,
        stores: 0,
    };
    let (answer, found) = put(&[good(5), good(4), none], 0);
    assert_eq!((answer, found), (bad(17, 1), Some(vec![NEW_SEQNUM])));
    let (answer, found) = put(&[good(5), none, good(0)], 5_000);
    assert_eq!((answer, found), (bad(16, 1), Some(vec![NO_FIELDS])));
    // 53 for the first on a new file, 33 for the second, less group 8 and group 1.
    let stores = 53 + 33 - 2;
    for (length, refusal) in [(0, 19), (16 * 84 - 1, 19), (16 * 84, 0), (16 * 90, 0)] {
        let (answer, _) = put(&[good(5), good(6)], length);
        let index = 0;
        assert_eq!(
            answer,
            Answer {
                refusal,
                index,
                stores
            }
        );
    }
}
