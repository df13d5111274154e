//! Each clause of 14 is a refusal here, and those of 12, 13 and 25 are none.
use super::asking::Tried;
use checks::generator::appends::{combined, targeted};
use checks::generator::dice::once_in;
use checks::generator::good::tidy;
use checks::generator::mutation::untidy;
use checks::generator::render::render;
use checks::generator::rendered::Rendered;
use checks::random::Random;
use reading::layout::TAIL_ENTRY_BOOT_ID;
use reading::plain::clauses;
use reading::refusal::clause::*;
use std::collections::BTreeMap;

/// The clauses of an append's refusals with one of these numbers.
fn of(numbers: &[u64]) -> Vec<Clause> {
    let all = APPEND_CLAUSES.iter().copied();
    all.filter(|it| numbers.contains(&it.number)).collect()
}

/// Each alone, and beside others of 14, of 12, 13 and 25, and of an append's later numbers.
#[test]
fn every_clause_of_14() {
    let mut tried = Tried::default();
    let (mut alone, mut together) = (BTreeMap::new(), BTreeMap::new());
    for (number, clause) in of(&[14]).into_iter().enumerate() {
        for seed in 0..30 {
            let random = &mut Random::new(seed + 1_000 * number as u64 + 50_000);
            for image in [
                targeted(clause, random).image,
                combined(clause, random).image,
            ] {
                let found = clauses(&image);
                assert_eq!(tried.image(&image), found.first().map_or(0, |it| it.number));
                let table = match found.len() {
                    1 => &mut alone,
                    _ => &mut together,
                };
                for clause in found {
                    *table.entry(clause).or_insert(0) += 1;
                }
            }
        }
    }
    tried.print("every clause of 14");
    for clause in of(&[14]) {
        let times = |table: &BTreeMap<Clause, u64>| table.get(&clause).copied().unwrap_or(0);
        let (alone, together) = (times(&alone), times(&together));
        println!("{alone:>6} alone {together:>6} combined  {}", clause.name);
        assert!(alone > 5 && together > 5, "{clause:?}");
    }
}

/// Compatible bits, state and a header of 264 bytes, alone and together: all is answered.
#[test]
fn no_refusals_here() {
    let mut tried = Tried::default();
    let numbers = [12, 25, 13];
    for (number, clause) in of(&numbers).into_iter().enumerate() {
        for seed in 0..12 {
            let random = &mut Random::new(seed + 1_000 * number as u64 + 60_000);
            assert_eq!(
                tried.image(&targeted(clause, random).image),
                0,
                "{clause:?}"
            );
        }
    }
    for seed in 0..40 {
        let random = &mut Random::new(seed + 61_000);
        let mut made = tidy(random);
        let mut chosen = of(&numbers);
        chosen.retain(|_| !once_in(random, 3));
        // Mutations that draw the image anew come before those that set a word.
        chosen.sort_by_key(|&it| !untidy::redraws(it));
        for clause in chosen {
            assert!(untidy::mutate(clause, random, &mut made), "{clause:?}");
        }
        assert_eq!(tried.image(&made.image), 0);
    }
    for flags in (0..32).map(|bit| 1 << bit).chain([u32::MAX]) {
        let mut image = tidy(&mut Random::new(62_000)).image;
        image[8..12].copy_from_slice(&flags.to_le_bytes());
        assert_eq!(tried.refusal(&image), 0, "{flags}");
    }
    for state in 0..=255 {
        let mut image = tidy(&mut Random::new(62_001)).image;
        image[16] = state;
        assert_eq!(tried.refusal(&image), 0, "{state}");
    }
    tried.print("no refusals here");
    tried.covers();
}

/// A file as an append takes it, but with a header of 264 bytes.
fn of_264(random: &mut Random) -> Rendered {
    let mut draft = tidy(random).draft;
    draft.header_size = 264;
    if once_in(random, 2) {
        draft.compatible_flags ^= TAIL_ENTRY_BOOT_ID;
    }
    render(&draft, random)
}

/// Its two late fields are compared, and every other clause of 14 applies to it as well; there is no
/// tail_entry_offset in it.
#[test]
fn a_header_of_264() {
    let mut tried = Tried::default();
    for clause in of(&[14]).into_iter().filter(|&it| it != TAIL_ENTRY) {
        let mut reached = 0;
        for seed in 0..20 {
            let random = &mut Random::new(seed + 63_000);
            let mut made = of_264(random);
            assert_eq!(tried.refusal(&made.image), 0);
            if untidy::mutate(clause, random, &mut made) {
                let found = clauses(&made.image);
                assert_eq!(
                    tried.image(&made.image),
                    found.first().map_or(0, |it| it.number)
                );
                reached += u64::from(found.contains(&clause));
            }
        }
        assert!(reached > 3, "{clause:?}: {reached}");
    }
    for seed in 0..10 {
        let random = &mut Random::new(seed + 64_000);
        let mut made = of_264(random);
        assert!(!untidy::mutate(TAIL_ENTRY, random, &mut made));
        assert_eq!(tried.image(&made.image), 0);
    }
    tried.print("a header of 264");
}
