//! The archive's lookups against the independent reading: every question at every argument where an
//! answer may change, at every place, of images that open and of images that do not.
use super::asking::Tried;
use checks::against::lookups::{archive, read, read_stamps};
use checks::against::trial::hex;
use checks::corpus::{self, FILES};
use checks::generator::any::{any, cut, larger};
use checks::generator::questions::Arguments;
use checks::generator::{appends, good, grown, mutation};
use checks::random::Random;
use reading::ask::Question;
use reading::carry::carry_out;
use reading::lookup::open;
use reading::plan::append;
use reading::refusal::CLAUSES;
use wrapper::raw;

fn alone() -> Arguments {
    Arguments::default()
}

#[test]
fn good_images() {
    let mut tried = Tried::default();
    for seed in 0..65 {
        let random = &mut Random::new(seed);
        let (one, other) = (good::good(random).image, good::tidy(random).image);
        tried.image(&one, &alone());
        // And with the arguments of another image.
        let mut more = Arguments::default();
        more.add(&open(&one).expect("it is good"));
        tried.image(&other, &more);
    }
    for seed in 0..6 {
        tried.image(&larger(&mut Random::new(seed)), &alone());
    }
    tried.print("good images");
    tried.covers();
    assert_eq!(tried.refused, 0);
}

#[test]
fn grown_images() {
    let mut tried = Tried::default();
    for seed in 0..60 {
        tried.image(&grown::grown(&mut Random::new(seed), 12), &alone());
    }
    tried.print("grown images");
    tried.covers();
    assert_eq!(tried.refused, 0);
}

/// Cut after each store, with the arguments from before the append and after it.
#[test]
fn appends_cut_in_the_middle() {
    let mut tried = Tried::default();
    for seed in 0..60 {
        tried.image(&cut(&mut Random::new(seed)), &alone());
    }
    let mut list = vec![0; 16 * 3000];
    for seed in 0..6 {
        let case = appends::good(&mut Random::new(seed));
        let answer = append(&case.image, &case.asked.request(), &mut list);
        if answer.refusal != 0 {
            continue;
        }
        let after = |k: u64| {
            let mut image = case.image.clone();
            assert_eq!(carry_out(&mut image, &list, k), 0);
            image
        };
        let mut more = Arguments::default();
        more.add(&open(&case.image).expect("it takes an append"));
        more.add(&open(&after(answer.stores)).expect("the append is whole"));
        let step = (answer.stores as usize / 12).max(1);
        for k in (0..=answer.stores).step_by(step).chain([answer.stores]) {
            tried.image(&after(k), &more);
        }
    }
    tried.print("appends cut in the middle");
    tried.covers();
    assert_eq!(tried.refused, 0);
}

#[test]
fn damaged_images() {
    let mut tried = Tried::default();
    for (number, &clause) in CLAUSES.iter().enumerate() {
        let rounds = if clause.number == 2 { 1 } else { 3 };
        for seed in 0..rounds {
            let random = &mut Random::new(seed + 1_000 * number as u64);
            tried.image(&mutation::targeted(clause, random), &alone());
            tried.image(&mutation::combined(clause, random), &alone());
        }
    }
    for seed in 0..150 {
        tried.image(
            &mutation::untargeted(&mut Random::new(seed + 7_000_000)),
            &alone(),
        );
        tried.image(&any(&mut Random::new(seed + 9_000_000)), &alone());
    }
    for length in [0, 1, 8, 255, 256] {
        tried.image(&vec![0; length], &alone());
    }
    tried.print("damaged images");
    tried.covers();
    assert!(tried.images.iter().all(|&n| n > 0));
}

/// Stamps and first items at every offset of some images.
#[test]
fn every_offset() {
    let (mut compared, mut found) = (0, 0);
    for seed in 0..5 {
        let image = good::good(&mut Random::new(seed + 500)).image;
        let journal = open(&image).expect("it is good");
        for offset in 0..image.len().min(6_000) as u64 + 16 {
            let stamps = raw::stamps(&image, offset);
            assert_eq!(
                stamps,
                read_stamps(&journal, offset),
                "{offset} of {}",
                hex(&image)
            );
            let item = Question::Item(offset, 0);
            assert_eq!(
                archive(&image, &item),
                read(&journal, &item),
                "{item:?} of {}",
                hex(&image)
            );
            compared += 2;
            found += (stamps != raw::Stamps::default()) as u64;
        }
    }
    println!("every offset: {compared} answers, {found} of committed entries");
    assert!(found > 0);
}

#[test]
fn corpus() {
    let mut tried = Tried::default();
    for (name, number) in FILES {
        let image = corpus::image(name);
        tried.image(&image, &alone());
        assert_eq!(open(&image).err().unwrap_or(0), number, "{name}");
    }
    tried.print("corpus");
    assert_eq!(tried.images.iter().sum::<u64>(), 7);
}
