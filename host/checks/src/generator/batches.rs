//! Batches: an image, a machine and several entries.
use super::appends::{end_of, with_arena_to};
use super::dice::{between, once_in, pick};
use super::good::tidy;
use super::grown::grown;
use super::requests::{change, fitting, mutate, Asked};
use crate::random::Random;
use reading::batch;
use reading::image::{arena_end, id, Image};
use reading::layout::{array, header, kind};
use reading::refusal::clause::*;
use reading::request::Request;

/// One batch to be worked out.
#[derive(Clone, Debug)]
pub struct Case {
    pub image: Vec<u8>,
    pub machine_id: [u8; 16],
    pub asked: Vec<Asked>,
}

impl Case {
    /// The buffer of its entries.
    pub fn entries(&self) -> Vec<u8> {
        packed(&self.asked)
    }
}

/// A buffer of entries.
pub fn packed(asked: &[Asked]) -> Vec<u8> {
    let requests: Vec<Request> = asked.iter().map(Asked::request).collect();
    batch::packed(&requests)
}

/// The files with the first entries appended one by one, as many as are taken.
pub fn files(image: &[u8], asked: &[Asked]) -> Vec<Vec<u8>> {
    let machine_id = id(image, header::MACHINE_ID);
    match batch::plan(image, machine_id, &packed(asked)) {
        Ok(batch) => batch.files,
        Err(refused) if refused.index > 0 => files(image, &asked[..refused.index]),
        Err(_) => vec![image.to_vec()],
    }
}

/// An image that takes appends, with room for several.
fn roomy(random: &mut Random) -> Vec<u8> {
    match random.below(3) {
        0 => grown(random, 8),
        _ => {
            let image = tidy(random).image;
            let more = 8 * between(random, 0, 900);
            let end = arena_end(&image) as u64 + more;
            with_arena_to(&image, end)
        }
    }
}

/// Up to so many entries, each fit for the file that those before it leave. One that is refused there,
/// since the file is full or the numbers are used up, is left out.
pub fn fitting_entries(random: &mut Random, image: &[u8], most: usize) -> Vec<Asked> {
    let mut asked = Vec::new();
    let mut file = image.to_vec();
    for _ in 0..most {
        let next = fitting(random, &file);
        if let Ok(batch) = batch::plan(&file, next.machine_id, &packed(&[next.clone()])) {
            file = batch.files[1].clone();
            asked.push(next);
        }
    }
    asked
}

/// A batch that is taken, of 1 to 32 entries, now and then on a file whose arena just holds it or whose
/// free bytes hold what will stand there.
pub fn good(random: &mut Random) -> Case {
    loop {
        let mut image = roomy(random);
        let most = pick(random, &[1, 2, 3, 4, 6, 10]);
        let asked = fitting_entries(random, &image, most);
        let Some(last) = asked.last() else {
            continue;
        };
        let files = files(&image, &asked);
        if once_in(random, 4) {
            let end = end_of(&files[asked.len() - 1], last);
            image = with_arena_to(&image, end);
        }
        if once_in(random, 3) {
            image = stale(random, &image, &files[asked.len()]);
        }
        return Case {
            machine_id: last.machine_id,
            image,
            asked,
        };
    }
}

/// The image with words of a later file where its own bytes are free: behind the tail object, and in
/// spare items of its arrays.
pub fn stale(random: &mut Random, image: &[u8], later: &[u8]) -> Vec<u8> {
    let mut stale = image.to_vec();
    let words = Image::walked(image);
    let end = words.objects[words.objects.len() - 1].next() as usize;
    let mut places: Vec<usize> = (end..arena_end(image) as usize).step_by(8).collect();
    for object in words.of_kind(kind::ENTRY_ARRAY) {
        let items = (object.offset + array::ITEMS) as usize..object.next() as usize;
        places.extend(items.step_by(8));
    }
    let few = once_in(random, 2);
    for at in places {
        if !few || once_in(random, 3) {
            stale[at..at + 8].copy_from_slice(&later[at..at + 8]);
        }
    }
    stale
}

/// A batch of so many entries whose entry at an index is meant for a clause of 16 to 18; those after it
/// may be bad too. None where the image does not allow it.
pub fn bad_at(random: &mut Random, clause: Clause, index: usize, count: usize) -> Option<Case> {
    let mut image = roomy(random);
    let mut asked = fitting_entries(random, &image, count);
    if asked.len() != count {
        return None;
    }
    let files = files(&image, &asked);
    let machine_id = asked[index].machine_id;
    match clause {
        PASSES_ARENA => {
            let end = end_of(&files[index], &asked[index]);
            let start = Image::walked(&files[index]).objects.last()?.next() as u64;
            let end = pick(random, &[end - 8, end - 8, start]);
            image = with_arena_to(&image, end);
        }
        _ if !change(clause, random, &files[index], &mut asked[index]) => return None,
        _ => {}
    }
    for later in &mut asked[index + 1..] {
        if once_in(random, 3) {
            mutate(random, later);
        }
    }
    Some(Case {
        image,
        machine_id,
        asked,
    })
}

/// A batch of any kind: taken, or with an entry meant for a clause of 16 to 18, or mutated.
pub fn any(random: &mut Random) -> Case {
    let clauses: Vec<Clause> = APPEND_CLAUSES
        .iter()
        .copied()
        .filter(|it| (16..=18).contains(&it.number))
        .collect();
    match random.below(4) {
        0 => loop {
            let (clause, count) = (pick(random, &clauses), random.below(5) + 1);
            let index = random.below(count);
            if let Some(case) = bad_at(random, clause, index, count) {
                return case;
            }
        },
        1 => {
            let mut case = good(random);
            let index = random.below(case.asked.len());
            mutate(random, &mut case.asked[index]);
            case
        }
        _ => good(random),
    }
}
