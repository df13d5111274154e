//! Files damaged by hand, with the places that are known from the damage.
use super::asking::Tried;
use checks::against::trial::hex;
use checks::generator::faulty::sample::{drawn, forms, sample};
use checks::generator::faulty::{cases, Case};
use reading::why::Why;

#[test]
fn as_they_were_damaged() {
    let mut tried = Tried::default();
    for form in forms() {
        let whole = drawn(&sample(form)).image;
        assert_eq!(tried.image(&whole), Why::default());
        for case in cases(form) {
            let is = tried.image(&case.image);
            let Case { what, image, why } = &case;
            assert_eq!(is, *why, "{form:?}: {what}, of {}", hex(image));
        }
    }
    tried.print("as they were damaged");
    tried.in_any_order(&[8, 9, 11]);
}
