//! Images of every kind that the generator has.
use super::asking::Tried;
use checks::generator::any::{any, cut, larger};
use checks::generator::faulty::sample::{drawn, forms, sample};
use checks::generator::frame::frame_in;
use checks::generator::good::{good, tidy};
use checks::generator::grown::grown;
use checks::generator::mutation;
use checks::random::Random;
use reading::layout::Layout;
use reading::why::Why;

/// "For a file that opens it says so and names no place."
#[test]
fn that_open() {
    let mut tried = Tried::default();
    for seed in 0..800 {
        let random = &mut Random::new(seed + 320_000);
        for image in [
            good(random).image,
            tidy(random).image,
            larger(random),
            grown(random, 12),
            cut(random),
        ] {
            assert_eq!(tried.image(&image), Why::default());
        }
    }
    tried.print("images that open");
}

#[test]
fn of_any_kind() {
    let mut tried = Tried::default();
    for seed in 0..5_000 {
        let random = &mut Random::new(seed + 330_000);
        tried.image(&mutation::untargeted(random));
        tried.image(&any(random));
    }
    for seed in 0..1_500 {
        let random = &mut Random::new(seed + 340_000);
        let image = larger(random);
        tried.image(&mutation::mutated(random, &image));
        let image = cut(random);
        tried.image(&mutation::mutated(random, &image));
    }
    tried.print("images of any kind");
    assert!((0..12).all(|number| number == 2 || tried.answers[number] > 50));
}

/// Inputs of every length up to 500, and the sample cut at every byte, with the arena that it has and one
/// that ends there.
#[test]
fn short_ones() {
    let mut tried = Tried::default();
    for length in 0..=500 {
        tried.image(&vec![0; length]);
        tried.image(&Random::new(length as u64).bytes(length));
    }
    for form in forms() {
        let whole = drawn(&sample(form)).image;
        for length in (0..whole.len()).rev() {
            let mut image = whole[..length].to_vec();
            tried.image(&image);
            if length as u64 >= form.1 {
                let arena_size = (length as u64 - form.1) / 8 * 8;
                image[96..104].copy_from_slice(&arena_size.to_le_bytes());
                tried.image(&image);
            }
        }
    }
    for kind in 1..=9 {
        for size in [16, 28, 32, 64, 65, 68, 73, 80, 96] {
            for layout in Layout::BOTH {
                if !matches!(kind, 4 | 5) {
                    tried.image(&frame_in(layout, 264, &[(kind, size), (8, 17)]));
                }
            }
        }
    }
    tried.print("short images");
    assert!([1, 3, 5, 6]
        .iter()
        .all(|&number| tried.answers[number] > 200));
}
