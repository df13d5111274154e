//! The crash states of a disk where a host syncs at the archive's points and no more often: all stores
//! up to one point, and of those up to the next one any, in any order.
use super::cuts::{all, questions, said};
use super::plan::{number, Append};
use crate::generator::dice::{shuffle, some_of};
use crate::random::Random;
use reading::carry::{stores, Store};
use reading::layout::header;
use reading::lookup::open;
use reading::request::Request;
use wrapper::raw::{self, carry_out};
use wrapper::sync_points;

/// Every choice of some of the stores, where there are at most so many; else so many by chance.
fn choices<'a>(random: &mut Random, stores: &[&'a [u8]], times: usize) -> Vec<Vec<&'a [u8]>> {
    let every = match stores.len() {
        count @ 0..20 => 1 << count,
        _ => usize::MAX,
    };
    let chosen = |set: usize| {
        let in_it = |&n: &usize| set >> n & 1 == 1;
        let places = (0..stores.len()).filter(in_it);
        places.map(|n| stores[n]).collect()
    };
    match every <= times {
        true => (0..every).map(chosen).collect(),
        false => (0..times).map(|_| some_of(random, stores)).collect(),
    }
}

/// Some of the stores up to each sync, `times` choices for each, on all before them: the image opens,
/// and one question in `step` is answered as before the append, or with the commit store as after it.
/// The whole list carried out once more makes the image after the append. The number of images, or the
/// refusal where the append is not taken.
pub fn orders(
    image: &[u8],
    request: Request,
    (times, step): (usize, usize),
    random: &mut Random,
) -> Result<Result<u64, u64>, String> {
    let append = Append::new(image, request);
    let need = append.need().unwrap_or(10);
    let (planned, list) = append.put(16 * need, random.word() >> 8)?;
    if planned.refusal().is_some() {
        return Ok(Err(number(&planned)));
    }
    let carried = |image: &[u8], stores: &[u8]| {
        let mut image = image.to_vec();
        match carry_out(&mut image, stores, stores.len() as u64 / 16) {
            0 => Ok(image),
            number => Err(format!("carrying out is refused {number}")),
        }
    };
    let after = carried(image, &list)?;
    let refused = |number: u64| format!("the reading refuses {number}");
    let (old, new) = (
        open(image).map_err(refused)?,
        open(&after).map_err(refused)?,
    );
    let asked = questions(&old, &new);
    let (old, new) = (all(&old, &asked)?, all(&new, &asked)?);
    let mut tried = 0;
    let mut start = 0;
    for point in sync_points(&list) {
        let name = format!("some stores from {start} to {point} of {need}");
        let up_to_it: Vec<&[u8]> = list[16 * start..16 * point].chunks(16).collect();
        for mut some in choices(random, &up_to_it, times) {
            shuffle(random, &mut some);
            let arrived = [&list[..16 * start], &some.concat()].concat();
            let commits = |it: &Store| it.offset == header::N_ENTRIES;
            let committed = stores(&arrived).iter().any(commits);
            let expected = if committed { &new } else { &old };
            let image = carried(image, &arrived)?;
            if raw::open(&image) != 0 {
                return Err(format!("{name}: refused"));
            }
            for at in (random.below(step)..asked.len()).step_by(step) {
                if said(&image, &asked[at]).as_ref() != Some(&expected[at]) {
                    return Err(format!("{name}: {:?}", expected[at]));
                }
            }
            if carried(&image, &list)? != after {
                return Err(format!("{name}, and then all of it"));
            }
            tried += 1;
        }
        start = point;
    }
    Ok(Ok(tried))
}
