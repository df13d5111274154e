//! A list carried out once more: after a cut anywhere, and after any of its stores in any order and as
//! often as one likes, this makes the image after the append.
use checks::generator::appends;
use checks::generator::dice::{pick, shuffle, some_of};
use checks::generator::worked::{first, request};
use checks::random::Random;
use reading::layout::Layout;
use wrapper::carry_out;

use crate::made::{list, made_in, Tried};

/// The image with the first k stores carried out by the archive.
fn carried(image: &[u8], list: &[u8], k: usize) -> Vec<u8> {
    let mut image = image.to_vec();
    assert_eq!(carry_out(&mut image, list, k as u64), Ok(()));
    image
}

#[test]
fn after_any_stores() {
    let mut tried = Tried::default();
    let (mut taken, mut images) = (0, 0);
    for seed in 0..400 {
        let random = &mut Random::new(seed + 36_000);
        let case = appends::good(random);
        let ask = case.asked.request();
        if tried.append(&case.image, ask) != 0 {
            continue;
        }
        let mut after = case.image.clone();
        let stores = tried.carried(&mut after, ask);
        let (whole, count) = (list(&stores), stores.len());
        for k in 0..=count {
            let cut = carried(&case.image, &whole, k);
            assert!(carried(&cut, &whole, count) == after, "a cut at {k}");
        }
        for _ in 0..40 {
            let mut some = some_of(random, &stores);
            for _ in 0..random.below(count) {
                some.push(pick(random, &stores));
            }
            shuffle(random, &mut some);
            let arrived = carried(&case.image, &list(&some), some.len());
            assert!(carried(&arrived, &whole, count) == after, "{some:?}");
        }
        (taken, images) = (taken + 1, images + count + 41);
    }
    println!("after any stores: {taken} appends, {images} images");
    assert!(taken > 200);
}

/// A cut while the list is carried out once more leaves the image of a cut.
#[test]
fn cut_once_more() {
    let mut tried = Tried::default();
    for (layout, header_size, count) in [
        (Layout::Regular, 256, 72),
        (Layout::Regular, 272, 74),
        (Layout::Compact, 272, 71),
    ] {
        let image = made_in(layout, header_size, 1024, (1, 1), true);
        let fields = first();
        let stores = tried.carried(&mut image.clone(), request(&fields, 1, 0, 0));
        let whole = list(&stores);
        assert_eq!(stores.len(), count);
        for k in 0..=count {
            let cut = carried(&image, &whole, k);
            for j in 0..=count {
                // From an image that has all, only the state is stored back for a while.
                let like = match k == count && 0 < j && j < count {
                    true => count - 1,
                    false => k.max(j),
                };
                let again = carried(&cut, &whole, j);
                assert!(again == carried(&image, &whole, like), "{k}, then {j}");
            }
        }
    }
}
