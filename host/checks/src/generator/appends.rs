//! Appends: an image, a request and the length of the lent store list.
use super::dice::{once_in, pick};
use super::good::tidy;
use super::grown::grown;
use super::mutation::{self, untidy};
use super::requests::{change, fitting, mutate, Asked};
use crate::random::Random;
use reading::image::{first_object, Image};
use reading::layout::header;
use reading::plan::plan;
use reading::refusal::clause::*;
use reading::request::{distinct, unpacked};
use reading::room::places;

/// One append to be worked out.
#[derive(Clone, Debug)]
pub struct Case {
    pub image: Vec<u8>,
    pub asked: Asked,
    /// The length of the lent list in bytes.
    pub list: usize,
}

/// An append that mostly is taken, now and then with an arena that just holds it.
pub fn good(random: &mut Random) -> Case {
    let mut image = if once_in(random, 6) {
        grown(random, 8)
    } else {
        tidy(random).image
    };
    let asked = fitting(random, &image);
    if once_in(random, 4) {
        image = with_arena_to(&image, end_of(&image, &asked));
    }
    let more = random.below(40);
    let list = need(&image, &asked).map_or(more, |stores| 16 * stores + more);
    Case { image, asked, list }
}

/// The number of stores of an append that is taken.
fn need(image: &[u8], asked: &Asked) -> Option<usize> {
    plan(image, &asked.request())
        .ok()
        .map(|stores| stores.len())
}

/// Where the new objects of an append end.
pub fn end_of(image: &[u8], asked: &Asked) -> u64 {
    let payloads = distinct(&unpacked(&asked.fields).expect("fitting"));
    places(&Image::walked(image), &payloads).end as u64
}

/// The image with its arena ending elsewhere, and 0 to 7 bytes after it.
pub fn with_arena_to(image: &[u8], end: u64) -> Vec<u8> {
    let mut image = image.to_vec();
    let arena_size = end - first_object(&image);
    image.resize((end + end / 8 % 8) as usize, 0);
    image[header::ARENA_SIZE as usize..][..8].copy_from_slice(&arena_size.to_le_bytes());
    image
}

/// An append meant for a clause of 12 to 19 or 25; it mostly reaches it.
pub fn targeted(clause: Clause, random: &mut Random) -> Case {
    loop {
        let mut made = tidy(random);
        let mut asked = fitting(random, &made.image);
        let possible = match clause.number {
            12..=14 | 25 => untidy::mutate(clause, random, &mut made),
            15..=17 => change(clause, random, &made.image, &mut asked),
            18 if once_in(random, 2) => {
                let end = end_of(&made.image, &asked);
                made.image = with_arena_to(&made.image, end - 8);
                true
            }
            18 => made.draft.spare < 100,
            _ => true,
        };
        if !possible {
            continue;
        }
        let list = match (clause.number, need(&made.image, &asked)) {
            (19, None) => continue,
            (19, Some(stores)) => {
                let less = random.below(16 * stores) + 1;
                16 * stores - pick(random, &[1, 16, less])
            }
            (_, stores) => 16 * stores.unwrap_or(random.below(20)),
        };
        return Case {
            image: made.image,
            asked,
            list,
        };
    }
}

/// An append meant for a clause of 12 to 18 or 25 with at least one other of its number or of one that
/// is tested later: the first is the answer.
pub fn combined(clause: Clause, random: &mut Random) -> Case {
    assert!(clause != LIST_SHORT, "nothing is tested after it");
    loop {
        let mut all = beside(clause, random);
        if all.is_empty() {
            continue;
        }
        all.push(clause);
        // Mutations that draw the image anew come before those that set a word.
        all.sort_by_key(|&it| !untidy::redraws(it));
        let mut made = tidy(random);
        let of = |numbers: &'static [u64]| {
            let all = all.iter().copied();
            all.filter(move |it| numbers.contains(&it.number))
        };
        if !of(&[12, 25, 13, 14]).all(|it| untidy::mutate(it, random, &mut made)) {
            continue;
        }
        let mut asked = fitting(random, &made.image);
        if !of(&[15, 16, 17]).all(|it| change(it, random, &made.image, &mut asked)) {
            continue;
        }
        let mut image = made.image;
        if of(&[18]).next().is_some() {
            let image_now = Image::walked(&image);
            let end = image_now.objects[image_now.objects.len() - 1].next() as u64;
            image = with_arena_to(&image, end);
        }
        let short = of(&[19]).next().is_some();
        let list = if short { random.below(32) } else { 16 * 3000 };
        return Case { image, asked, list };
    }
}

/// Clauses to stand beside one: at most one of each number from its own on, in the order of tests.
fn beside(clause: Clause, random: &mut Random) -> Vec<Clause> {
    let mut others = Vec::new();
    let later = APPEND_ORDER.into_iter();
    for number in later.skip_while(|&number| number != clause.number) {
        let mut choices = APPEND_CLAUSES.to_vec();
        choices.retain(|&it| it.number == number && it != clause);
        if number == clause.number {
            // Nothing else can be said of fields that are none or badly packed.
            choices.retain(|it| !matches!(*it, NO_FIELDS | BADLY_PACKED));
        }
        if !choices.is_empty() && once_in(random, 2) {
            others.push(pick(random, &choices));
        }
    }
    others
}

/// An append of any kind: taken, meant for a clause, mutated, or to a mutated image.
pub fn any(random: &mut Random) -> Case {
    let mut case = match random.below(4) {
        0 if once_in(random, 3) => {
            let below_19 = &APPEND_CLAUSES[..APPEND_CLAUSES.len() - 1];
            combined(pick(random, below_19), random)
        }
        0 => targeted(pick(random, APPEND_CLAUSES), random),
        1 if once_in(random, 4) => Case {
            image: mutation::untargeted(random),
            ..good(random)
        },
        _ => good(random),
    };
    if once_in(random, 4) {
        mutate(random, &mut case.asked);
    }
    case
}
