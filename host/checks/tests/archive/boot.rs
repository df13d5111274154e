//! What the archive says of the boot id in the header: from compatible bit 1 alone, of every image that
//! opens.
use super::example::{drawn, example};
use checks::against::boot::compare;
use checks::corpus::{self, FILES};
use checks::generator::any::{any, cut, larger};
use checks::generator::worked::two_appends_with;
use checks::generator::{good, grown, mutation};
use checks::random::Random;
use reading::layout::HEADER_SIZES;
use reading::refusal::CLAUSES;
use wrapper::raw::{self, BootMeaning};

/// How many images were compared: by what is said of those that open, and by the refusal.
#[derive(Default)]
struct Tried {
    said: [u64; 2],
    refused: [u64; 12],
    /// Refused ones that have bit 1 set.
    with_the_bit: [u64; 12],
}

impl Tried {
    fn image(&mut self, image: &[u8]) {
        let tried = self.said.iter().chain(&self.refused).sum();
        let answer = compare(image, tried).unwrap_or_else(|difference| panic!("{difference}"));
        match answer {
            Ok(of_tail_entry) => self.said[of_tail_entry as usize] += 1,
            Err(number) => {
                self.refused[number as usize] += 1;
                let bit = image.get(8).is_some_and(|flags| flags & 2 != 0);
                self.with_the_bit[number as usize] += u64::from(bit);
            }
        }
    }

    fn print(&self, what: &str) {
        let Tried { said, refused, .. } = self;
        println!("{what}: images that open {said:?}, refused {refused:?}");
    }
}

/// Each header size with no bit, each bit alone, all and all but one: bit 1 decides, and no other bit,
/// byte or size does.
#[test]
fn by_bit_1_alone() {
    let mut flags = vec![0, u32::MAX];
    flags.extend((0..32).flat_map(|bit| [1 << bit, !(1 << bit), 2 | 1 << bit]));
    for header_size in HEADER_SIZES {
        for keyed in [false, true] {
            for &compatible_flags in &flags {
                let mut draft = example();
                (draft.header_size, draft.keyed) = (header_size, keyed);
                draft.compatible_flags = compatible_flags;
                let of_tail_entry = u64::from(compatible_flags / 2 % 2);
                let right = BootMeaning {
                    refusal: 0,
                    of_tail_entry,
                };
                assert_eq!(raw::boot_meaning(&drawn(&draft).image), right);
            }
        }
    }
}

/// New files say it by their header; an append changes nothing of it.
#[test]
fn files_of_the_rules() {
    for (header_size, of_tail_entry) in [(256, 0), (272, 1)] {
        for keyed in [0, 1] {
            let image = two_appends_with(header_size, keyed);
            let right = BootMeaning {
                refusal: 0,
                of_tail_entry,
            };
            assert_eq!(raw::boot_meaning(&image), right);
        }
    }
}

#[test]
fn every_kind() {
    let mut tried = Tried::default();
    for seed in 0..600 {
        let random = &mut Random::new(seed + 70_000);
        for image in [
            good::good(random).image,
            good::tidy(random).image,
            grown::grown(random, 6),
            cut(random),
            any(random),
            mutation::untargeted(random),
        ] {
            tried.image(&image);
        }
        if seed < 40 {
            tried.image(&larger(random));
        }
    }
    tried.print("every kind");
    assert!(tried.said.iter().all(|&n| n > 500));
}

/// Each clause of 1 to 11, alone and combined: the number, and 0 whatever the bit.
#[test]
fn refused() {
    let mut tried = Tried::default();
    for (number, &clause) in CLAUSES.iter().enumerate() {
        let rounds = if clause.number == 2 { 4 } else { 20 };
        for seed in 0..rounds {
            let random = &mut Random::new(seed + 1_000 * number as u64);
            for mut image in [
                mutation::targeted(clause, random),
                mutation::combined(clause, random),
            ] {
                tried.image(&image);
                if let Some(flags) = image.get_mut(8) {
                    *flags ^= 2;
                    tried.image(&image);
                }
            }
        }
    }
    tried.print("refused");
    assert!(tried.refused[1..].iter().all(|&n| n > 5));
    assert!(tried.with_the_bit[1..].iter().all(|&n| n > 2));
}

/// Files of journald: systemd 257 sets the bit, 247 and 252 do not know it.
#[test]
fn real_files() {
    for (name, number) in FILES {
        let image = corpus::image(name);
        let right = BootMeaning {
            refusal: number,
            of_tail_entry: u64::from(name.starts_with("trixie")),
        };
        assert_eq!(raw::boot_meaning(&image), right, "{name}");
    }
}

#[test]
fn short_inputs() {
    let mut tried = Tried::default();
    let mut draft = example();
    (draft.header_size, draft.compatible_flags) = (272, 2);
    let image = drawn(&draft).image;
    for length in 0..=400 {
        tried.image(&vec![2; length]);
        tried.image(&image[..length]);
    }
    assert_eq!(tried.refused[1], 512);
}
