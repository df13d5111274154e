//! The wrapper's stream of two files: its typed answers are the archive's numbers, and the whole
//! stream is its single steps.
use checks::corpus;
use checks::generator::any::any;
use checks::generator::pairs::pair;
use checks::random::Random;
use wrapper::raw;
use wrapper::{Refusal, Which};

/// A step and the payloads of its entry, and a short page. What is shown, if something is.
fn same_step(first: &[u8], second: &[u8], at: [u64; 2]) -> Option<raw::Merged> {
    let is = raw::merged(first, second, at[0], at[1]);
    match wrapper::merged(first, second, at[0], at[1]) {
        Ok(Some(step)) => {
            let numbers = (step.file.number(), step.entry.0);
            assert_eq!((numbers, is.refusal), ((is.file, is.entry), 0));
            let next = (step.next_first, step.next_second);
            assert_eq!(next, (is.next_first, is.next_second));
        }
        Ok(None) => assert_eq!(is, raw::Merged::default()),
        Err(refused) => assert_eq!(
            (refused.refusal.number(), refused.file.number()),
            (is.refusal, is.file)
        ),
    }
    for place in [0, 1, 5, u64::MAX] {
        let part = raw::merged_item(first, second, at[0], at[1], place);
        match wrapper::merged_item(first, second, at[0], at[1], place) {
            None => assert_eq!(part, raw::MergedPart::default()),
            Some((file, payload)) => {
                let image = file.of(first, second);
                let start = payload.as_ptr() as usize - image.as_ptr() as usize;
                let place = (start as u64, payload.len() as u64);
                assert_eq!((file.number(), place), (part.file, (part.at, part.len)));
            }
        }
    }
    let (mut one, mut other) = ([7; 300], [7; 300]);
    let page = raw::page_merged(first, second, at[0], at[1], &mut one);
    match wrapper::page_merged(first, second, at[0], at[1], &mut other) {
        Ok(it) => assert_eq!(
            (it.count, it.next, it.next_first, it.next_second, 0),
            (
                page.count,
                page.next,
                page.next_first,
                page.next_second,
                page.refusal
            )
        ),
        Err(refused) => assert_eq!(
            (refused.refusal.number(), refused.file.number()),
            (page.refusal, page.file)
        ),
    }
    assert_eq!(one, other);
    (is.refusal == 0 && is.file != 0).then_some(is)
}

/// The whole stream against single steps, stamps and payloads; how many entries it has.
fn same_stream(first: &[u8], second: &[u8]) -> usize {
    let mut step = same_step(first, second, [0, 0]);
    let Ok(all) = wrapper::all_merged(first, second) else {
        assert_eq!(step, None);
        return 0;
    };
    for (file, entry) in &all {
        let is = step.expect("a step for each entry");
        assert_eq!((is.file, is.entry), (file.number(), entry.offset.0));
        let image = file.of(first, second);
        let entries = wrapper::all_entries(image).expect("it opens");
        assert!(entries.contains(entry));
        step = same_step(first, second, [is.next_first, is.next_second]);
    }
    assert_eq!(step, None);
    all.len()
}

#[test]
fn answers() {
    let mut entries = 0;
    for seed in 0..30 {
        let random = &mut Random::new(seed + 76_000);
        let [first, second] = pair(random);
        entries += same_stream(&first, &second);
        same_stream(&first, &any(random));
        same_stream(&any(random), &second);
    }
    assert!(entries > 100);
    let [one, other, compact] = [
        "bullseye-k0-c0-system",
        "bullseye-k1-c0-online",
        "trixie-k1-c1-system",
    ]
    .map(corpus::image);
    assert_eq!(same_stream(&one, &other), 40);
    assert_eq!(same_stream(&other, &compact), 40);
    assert_eq!(same_stream(&other, &corpus::compressed()), 0);
    same_step(&one, &other, [u64::MAX, 36]);
}

/// The words have the file and then those of its refusal.
#[test]
fn refused() {
    let (good, bad) = (corpus::image("bullseye-k0-c0-system"), corpus::compressed());
    let refusal = Refusal::new(4).expect("not 0");
    for (first, second, file, start) in [
        (&bad, &good, Which::First, "file 1: "),
        (&good, &bad, Which::Second, "file 2: "),
    ] {
        let refused = wrapper::all_merged(first, second).expect_err("it is refused");
        assert_eq!((refused.file, refused.refusal), (file, refusal));
        assert_eq!(refused.to_string(), format!("{start}{refusal}"));
    }
}
