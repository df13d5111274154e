//! Images of every kind that the generator has, and files of journald.
use super::asking::Tried;
use checks::corpus::{self, FILES};
use checks::generator::ahead::ahead;
use checks::generator::any::{any, cut, larger};
use checks::generator::foreign;
use checks::generator::good::{draft, good, tidy};
use checks::generator::grown::grown;
use checks::generator::mutation;
use checks::generator::questions::Arguments;
use checks::generator::render::render;
use checks::generator::unheld::unheld;
use checks::generator::wish::Wish;
use checks::random::Random;
use reading::layout::{kind, Layout, HEADER_SIZES};
use reading::lookup::open;
use reading::refusal::CLAUSES;
use wrapper::raw;

/// Those of the rules' every freedom: many have counters that hold anything, DATA off their chains or
/// ENTRYs that are not committed, which is 14 here.
#[test]
fn good_images() {
    let mut tried = Tried::default();
    for seed in 0..110 {
        let random = &mut Random::new(seed + 40_000);
        let (one, other) = (good(random).image, tidy(random).image);
        tried.image(&one);
        // With the arguments of another image.
        let mut more = Arguments::default();
        more.add(&open(&one).expect("it is good"));
        assert_eq!(tried.with(&other, &more, 1), 0);
    }
    for seed in 0..8 {
        tried.image(&larger(&mut Random::new(seed + 40_000)));
    }
    tried.print("good images");
    tried.covers();
    let [read, only_14, below] = tried.sorts();
    assert!(read > 120 && only_14 > 50 && below == 0);
}

/// In each layout with each header, keyed and not: those of 264 bytes are read like the others.
#[test]
fn forms() {
    let mut tried = Tried::default();
    for layout in Layout::BOTH {
        for (header_size, keyed) in HEADER_SIZES
            .into_iter()
            .flat_map(|it| [(it, false), (it, true)])
        {
            for seed in 0..5 {
                let random = &mut Random::new(seed + 41_000);
                let wish = Wish {
                    tidy: true,
                    entries: 10,
                    data: 8,
                };
                let mut draft = draft(random, wish);
                (draft.layout, draft.header_size, draft.keyed) = (layout, header_size, keyed);
                assert_eq!(tried.image(&render(&draft, random).image), 0);
            }
            let random = &mut Random::new(1);
            for stale in [false, true] {
                let unheld = unheld(layout, header_size, keyed, stale);
                assert_eq!(tried.image(&render(&unheld, random).image), 0);
            }
            for entries in 0..=6 {
                let ahead = ahead(layout, header_size, keyed, entries);
                assert_eq!(tried.image(&render(&ahead, random).image), 0);
            }
        }
    }
    tried.print("forms");
    tried.covers();
    assert_eq!(tried.images[0], 12 * (5 + 2 + 7));
}

/// Files that appends wrote, with foreign objects between them now and then, and at their end.
#[test]
fn grown_images() {
    let mut tried = Tried::default();
    for seed in 0..80 {
        let random = &mut Random::new(seed + 42_000);
        let mut image = grown(random, 12);
        assert_eq!(tried.image(&image), 0);
        let (kind, size) = foreign::any(random);
        if seed % 4 == 0 && foreign::put(&mut image, kind, size).is_some() {
            assert_eq!(tried.image(&image), 0);
        }
    }
    tried.print("grown images");
    tried.covers();
}

#[test]
fn appends_cut_in_the_middle() {
    let mut tried = Tried::default();
    for seed in 0..160 {
        tried.image(&cut(&mut Random::new(seed + 43_000)));
    }
    tried.print("appends cut in the middle");
    tried.covers();
    let [read, only_14, below] = tried.sorts();
    assert!(read > 30 && only_14 > 30 && below == 0);
}

#[test]
fn damaged_images() {
    let mut tried = Tried::default();
    for (number, &clause) in CLAUSES.iter().enumerate() {
        let rounds = if clause.number == 2 { 1 } else { 3 };
        for seed in 0..rounds {
            let random = &mut Random::new(seed + 1_000 * number as u64 + 44_000);
            tried.image(&mutation::targeted(clause, random));
            tried.image(&mutation::combined(clause, random));
        }
    }
    for seed in 0..300 {
        let random = &mut Random::new(seed + 45_000);
        tried.image(&mutation::untargeted(random));
        tried.image(&any(random));
        let image = tidy(random).image;
        tried.image(&mutation::mutated(random, &image));
    }
    for length in [0, 1, 8, 255, 256] {
        tried.image(&vec![0; length]);
    }
    tried.print("damaged images");
    tried.covers();
    let [read, only_14, below] = tried.sorts();
    assert!(read > 100 && only_14 > 100 && below > 300);
    assert!((1..12).all(|number| tried.images[number] > 0));
}

/// An item is asked for at every byte of some images: only an ENTRY has one.
#[test]
fn every_offset() {
    let mut found = 0;
    for seed in 0..6 {
        let image = tidy(&mut Random::new(seed + 46_000)).image;
        let journal = open(&image).expect("it is good");
        for offset in 0..image.len().min(6_000) as u64 + 16 {
            let item = raw::plain::item(&image, offset, 0);
            assert_eq!(item, raw::item(&image, offset, 0), "{offset}");
            let is_entry = journal.image.lands(offset, kind::ENTRY);
            assert_eq!(item != raw::Part::default(), is_entry, "{offset}");
            found += u64::from(is_entry);
        }
    }
    println!("every offset: {found} entries");
    assert!(found > 10);
}

/// What journald wrote: online, archived and sealed files, with each header and a compact one.
#[test]
fn corpus() {
    let mut tried = Tried::default();
    for (name, _) in FILES {
        let image = corpus::image(name);
        assert_eq!(tried.some(&image, 3), 0, "{name}");
        for seed in 0..40 {
            let changed = mutation::mutated(&mut Random::new(seed), &image);
            tried.some(&changed, 97);
        }
    }
    tried.print("corpus");
    let [read, only_14, below] = tried.sorts();
    assert!(read > 20 && only_14 > 20 && below > 20);
}
