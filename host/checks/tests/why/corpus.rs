//! Files of journald: as they are, cut short, and with bits changed.
use super::asking::Tried;
use checks::corpus::{self, FILES};
use checks::generator::frame::set;
use checks::generator::mutation::mutated;
use checks::random::Random;
use reading::image::{first_object, Image};
use reading::layout::header;
use reading::why::Why;

#[test]
fn as_they_are() {
    let mut tried = Tried::default();
    for (name, number) in FILES {
        assert_eq!(number, 0, "{name}");
        assert_eq!(tried.image(&corpus::image(name)), Why::default(), "{name}");
    }
    assert_eq!(tried.image(&corpus::compressed()).refusal, 4);
}

/// With the arena that the header tells, and with one that ends there: before, in and behind the objects.
#[test]
fn cut_short() {
    let mut tried = Tried::default();
    for (name, _) in FILES {
        let whole = corpus::image(name);
        let objects = Image::walked(&whole).objects;
        let mut ends: Vec<usize> = (0..whole.len()).step_by(1_999).collect();
        for object in objects.iter().step_by(7) {
            ends.extend([0, 8, 16, 40].map(|into| object.offset as usize + into));
        }
        for end in ends {
            let mut image = whole[..end.min(whole.len())].to_vec();
            tried.image(&image);
            if image.len() as u64 >= first_object(&whole) {
                let arena_size = (image.len() as u64 - first_object(&whole)) / 8 * 8;
                set(&mut image, header::ARENA_SIZE, arena_size);
                tried.image(&image);
            }
        }
    }
    tried.print("files of journald cut short");
    assert!([1, 5, 6].iter().all(|&number| tried.answers[number] > 5));
}

/// One bit, and some more, in the bytes up to the last object's end; and words as elsewhere.
#[test]
fn with_bits_changed() {
    let mut tried = Tried::default();
    for (name, _) in FILES {
        let whole = corpus::image(name);
        let objects = Image::walked(&whole).objects;
        let end = objects[objects.len() - 1].next() as usize;
        for seed in 0..250 {
            let random = &mut Random::new(seed + 350_000);
            let mut image = whole.clone();
            // Most of a file is tables.
            let start = match seed % 3 {
                0 => 0,
                _ => objects[2].offset as usize,
            };
            for _ in 0..[1, 1, 1, 2, 5][random.below(5)] {
                image[start + random.below(end - start)] ^= 1 << random.below(8);
            }
            tried.image(&image);
            tried.image(&mutated(random, &whole));
        }
    }
    tried.print("files of journald with bits changed");
    assert!((6..12).all(|number| number == 7 || tried.answers[number] > 10));
}
