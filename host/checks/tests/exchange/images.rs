//! Entries of images of every kind that the generator has, and of files of journald.
use super::asking::Tried;
use checks::corpus::{self, FILES};
use checks::generator::any::{any, cut, larger};
use checks::generator::faulty::sample::forms;
use checks::generator::good::{draft, good, tidy};
use checks::generator::grown::grown;
use checks::generator::mutation;
use checks::generator::render::render;
use checks::generator::wish::Wish;
use checks::random::Random;
use reading::image::le64;
use reading::layout::{header, kind};
use reading::lookup::open;
use reading::refusal::CLAUSES;

/// The offsets of all objects, beside them, and at the edges; every entry among them, committed or not.
fn offsets(image: &[u8]) -> Vec<u64> {
    let mut offsets = vec![0, 1, 8, 255, 256, 264, 272, 1 << 32, 1 << 63, u64::MAX];
    if let Ok(journal) = open(image) {
        for object in &journal.image.objects {
            let at = object.offset;
            match object.kind {
                kind::ENTRY => offsets.extend([at - 8, at - 1, at, at + 1, at + 8, at + (1 << 32)]),
                _ => offsets.push(at),
            }
        }
        offsets.push(le64(image, header::TAIL_OBJECT_OFFSET) + 64);
    }
    offsets
}

#[test]
fn that_open() {
    let mut tried = Tried::default();
    for seed in 0..120 {
        let random = &mut Random::new(seed + 500_000);
        for image in [
            good(random).image,
            tidy(random).image,
            grown(random, 8),
            cut(random),
        ] {
            tried.at(&image, offsets(&image));
        }
    }
    for seed in 0..10 {
        let image = larger(&mut Random::new(seed + 501_000));
        tried.at(&image, offsets(&image));
    }
    tried.print("images that open");
    let written = tried.written[0] - tried.none;
    assert!(written > 500 && tried.none > 5_000 && tried.written[16] > 100);
}

/// Each layout with each header, keyed and not.
#[test]
fn of_each_form() {
    let mut tried = Tried::default();
    for (layout, header_size, keyed) in forms() {
        let mut here = Tried::default();
        for seed in 0..12 {
            let random = &mut Random::new(seed + 502_000);
            let wish = Wish {
                tidy: seed % 2 == 0,
                entries: 9,
                data: 8,
            };
            let mut draft = draft(random, wish);
            (draft.layout, draft.header_size, draft.keyed) = (layout, header_size, keyed);
            let image = render(&draft, random).image;
            here.entries(&image);
            tried.at(&image, offsets(&image));
        }
        assert!(here.written[0] > 5 && here.written[16] > 5 && here.none == 0);
    }
    tried.print("images of each form");
}

/// Refused ones: 1 to 11 at any offset, before 16 and 28.
#[test]
fn refused() {
    let mut tried = Tried::default();
    for (number, &clause) in CLAUSES.iter().enumerate() {
        let rounds = if clause.number == 2 { 1 } else { 6 };
        for seed in 0..rounds {
            let random = &mut Random::new(seed + 1_000 * number as u64 + 510_000);
            let image = mutation::targeted(clause, random);
            let offset = random.word() >> random.below(64);
            tried.at(&image, [0, 256, 584, offset]);
        }
    }
    for seed in 0..600 {
        let random = &mut Random::new(seed + 503_000);
        let image = any(random);
        tried.at(&image, offsets(&image));
        let image = tidy(random).image;
        let committed = open(&image).map_or(Vec::new(), |journal| journal.committed);
        tried.at(&mutation::mutated(random, &image), committed);
    }
    for length in 0..300 {
        tried.at(&vec![0; length], [0, 256]);
    }
    tried.print("refused images");
    assert!((1..12).all(|number| tried.written[number] > 2));
}

/// A text is asked for at every byte of some images: only a committed ENTRY has a text.
#[test]
fn every_offset() {
    let mut tried = Tried::default();
    for seed in 0..3 {
        let image = tidy(&mut Random::new(seed + 504_000)).image;
        tried.at(&image, 0..image.len().min(3_000) as u64 + 16);
    }
    tried.print("every offset");
    assert!(tried.written[0] + tried.written[16] - tried.none > 5);
}

/// What journald wrote: online, archived and sealed files, with each header and a compact one. Each entry has
/// the boot's id among its fields.
#[test]
fn files_of_journald() {
    let mut tried = Tried::default();
    for (name, _) in FILES {
        let image = corpus::image(name);
        for text in tried.entries(&image) {
            let text = text.expect("an append takes its fields").expect("an entry");
            let stamps = tried.import(&text).expect("it was written").stamps;
            let line = format!("_BOOT_ID={:032x}\n", u128::from_be_bytes(stamps.boot_id));
            let at = |from: usize| {
                let mut windows = text[from..].windows(line.len());
                windows
                    .position(|it| it == line.as_bytes())
                    .map(|it| it + from)
            };
            let first = at(0).expect("the boot's id");
            assert_eq!(at(first + 1), None, "{name}");
        }
        tried.at(&image, offsets(&image).into_iter().step_by(37));
        for seed in 0..6 {
            let changed = mutation::mutated(&mut Random::new(seed), &image);
            tried.at(&changed, offsets(&changed).into_iter().step_by(337));
        }
    }
    tried.print("files of journald");
    assert!(tried.written[0] - tried.none > 80);
}
