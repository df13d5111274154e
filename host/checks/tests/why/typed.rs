//! The wrapper's answer in the words of its types.
use checks::generator::any::any;
use checks::generator::faulty::cases;
use checks::generator::faulty::sample::forms;
use checks::random::Random;
use reading::why::{why, Why};
use wrapper::{Offset, Place};

/// What the types say, as the numbers that they were made of.
fn numbers(image: &[u8]) -> Why {
    let Some(said) = wrapper::why(image) else {
        return Why::default();
    };
    let refusal = said.refusal.number();
    let (hash_wrong, stored, right) = match said.hash {
        Some(hash) => (1, hash.stored, hash.right),
        None => (0, 0, 0),
    };
    let place = match said.place {
        Place::Header => 0,
        Place::Object(Offset(offset)) => {
            assert!(offset >= 256 && matches!(refusal, 6 | 8 | 10 | 11));
            offset
        }
        Place::Position(index) => {
            assert_eq!(refusal, 9);
            index
        }
    };
    Why {
        refusal,
        place,
        hash_wrong,
        stored,
        right,
    }
}

#[test]
fn the_same_in_types() {
    for form in forms() {
        for case in cases(form).iter().step_by(11) {
            assert_eq!(numbers(&case.image), case.why, "{}", case.what);
        }
    }
    for seed in 0..500 {
        let image = any(&mut Random::new(seed + 360_000));
        assert_eq!(numbers(&image), why(&image));
    }
}
