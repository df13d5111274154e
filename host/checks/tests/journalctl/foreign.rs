//! Files with foreign objects among the entries, of each type once. `--verify` of systemd 252 passes
//! them without a word, that of 254 calls them invalid objects, and `-o export` shows the entries as if there were none.
use checks::generator::foreign::put;
use checks::random::Random;

use crate::check::{check, check_shown, exported};
use crate::entries::logged;
use crate::file::{knows_the_boot_bit, File};
use crate::written::{append, new, nth};

#[test]
fn passed_and_shown() {
    for keyed in [0, 1] {
        let random = &mut Random::new(700 + keyed);
        let [mut image, mut plain] = [(); 2].map(|()| new(65_536, (3, 2), keyed));
        for (kind, n) in (8..=255).zip(0..) {
            put(&mut image, kind, 16 + n % 50).expect("room");
            if n % 8 == 0 {
                let (at, payloads) = (nth(n + 1), logged(random, n));
                append(&mut image, at, &payloads);
                append(&mut plain, at, &payloads);
                let entries = n as usize / 8 + 1;
                match knows_the_boot_bit() {
                    true => check_shown(&image, entries),
                    false => check(&image, entries),
                }
            }
        }
        let kinds = wrapper::foreign_objects(&image).expect("it opens");
        assert!(kinds.map(|it| it.kind).eq(8..=255));
        let [one, other] = [&image, &plain].map(|it| exported(&File::new(it), &[]));
        assert!(one == other, "journalctl shows other entries");
        assert_eq!(one.len(), 31);
    }
}
