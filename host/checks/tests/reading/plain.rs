//! The plain reader by the rules' worked example, and beside the first one.
use checks::generator::any::any;
use checks::generator::frame::set;
use checks::generator::questions::questions;
use checks::generator::worked::{two_appends, two_appends_with, LAST};
use checks::random::Random;
use reading::ask::{ask, Answer, Question};
use reading::layout::header;
use reading::lookup::{self, Part};
use reading::plain::{clauses, open, refusal};
use reading::refusal::clause::*;

/// "DATA 320, FIELD 408, DATA 456, FIELD 536, ENTRY 584, array 680, end 736", and the second ENTRY there.
#[test]
fn the_worked_example() {
    let image = two_appends(1);
    let plain = open(&image).expect("it is read");
    let entries = [Answer::Entry(584), Answer::Entry(736), Answer::None];
    let payload = |name: &[u8]| name.to_vec();
    let shown = |place, length| Answer::Shown(Part { place, length });
    for (place, &entry) in (0..).zip(&entries) {
        assert_eq!(plain.ask(&Question::Entry(place)), entry);
        let holding = Question::Holding(payload(b"PRIORITY=2"), place);
        assert_eq!(plain.ask(&holding), entry);
        assert_eq!(plain.ask(&Question::FirstSeqnum(LAST + place)), entry);
        let realtime = 1_700_000_000_000_000 + place;
        assert_eq!(plain.ask(&Question::FirstRealtime(realtime)), entry);
    }
    for (question, answer) in [
        (Question::Entry(u64::MAX), Answer::None),
        (Question::FirstSeqnum(0), entries[0]),
        (Question::FirstRealtime(u64::MAX), Answer::None),
        (
            Question::Holding(payload(b"MESSAGE=lot 12 due"), 0),
            entries[0],
        ),
        (
            Question::Holding(payload(b"MESSAGE=lot 12 due"), 1),
            Answer::None,
        ),
        (
            Question::Holding(payload(b"MESSAGE=lot 12"), 0),
            Answer::None,
        ),
        (Question::Item(584, 0), shown(384, 18)),
        (Question::Item(584, 1), shown(520, 10)),
        (Question::Item(584, 2), Answer::None),
        (Question::Item(736, 0), shown(520, 10)),
        (Question::Item(680, 0), Answer::None),
        (Question::Payload(payload(b"PRIORITY"), 0), shown(520, 10)),
        (Question::Payload(payload(b"PRIORITY"), 1), Answer::None),
        (Question::Payload(payload(b"PRIORITY="), 0), Answer::None),
        (Question::Payload(payload(b"PRIORIT"), 0), Answer::None),
        (Question::Payload(payload(b""), 0), Answer::None),
    ] {
        assert_eq!(plain.ask(&question), answer, "{question:?}");
    }
}

/// 14 after 1 to 11, and never 12, 13 or 25.
#[test]
fn refusals() {
    let with = |at: u64, value: u64| {
        let mut image = two_appends_with(272, 1);
        set(&mut image, at, value);
        clauses(&image)
    };
    assert_eq!(with(header::N_OBJECTS, 0), [COUNTER_OBJECTS]);
    assert_eq!(with(header::TAIL_ENTRY_OFFSET, 0), [TAIL_ENTRY]);
    // The second ENTRY stands and is not committed.
    let found = with(header::N_ENTRIES, 1);
    assert!(found.contains(&COUNTER_ENTRIES) && found.iter().all(|it| it.number == 14));
    // And nine comes before.
    let found = with(header::N_ENTRIES, 5);
    assert!(found.contains(&COUNT_ABOVE_CHAIN) && found.iter().all(|it| it.number == 9));
    assert_eq!(with(header::STATE, 1), []);
    // Compatible bits 0 and 1, and incompatible bit 2.
    assert_eq!(with(header::COMPATIBLE_FLAGS, 3 | 4 << 32), []);
    assert_eq!(refusal(&[0; 300]), 3);
    assert_eq!(open(&[0; 8]).err(), Some(1));
}

/// "it gives the same answers for every lookup and value list as the first"
#[test]
fn the_same_answers() {
    let (mut images, mut answers, mut only_14) = (0, 0, 0);
    for seed in 0..1_500 {
        let image = any(&mut Random::new(seed + 33_000));
        let number = refusal(&image);
        let Ok(plain) = open(&image) else {
            let first = lookup::open(&image).err().unwrap_or(14);
            assert_eq!(number, first);
            only_14 += u64::from(number == 14);
            continue;
        };
        let journal = lookup::open(&image).expect("1 to 11 passed");
        for question in questions(&journal) {
            assert_eq!(
                plain.ask(&question),
                ask(&journal, &question),
                "{question:?}"
            );
            answers += 1;
        }
        images += 1;
    }
    println!("{images} images are read, {answers} answers; {only_14} images of 14 alone");
    assert!(images > 300 && only_14 > 100);
}
