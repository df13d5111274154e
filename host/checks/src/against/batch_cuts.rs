//! Every cut of a batch through the archive: "After any cut the reading is the old entries and the first j
//! new ones, j being the commit stores that arrived", and every lookup answers "as on the file with those j
//! appended one by one".
use super::batch::Batch;
use super::cuts::{checked, cut, questions, Asked};
use crate::generator::dice::{shuffle, some_of};
use crate::random::Random;
use reading::carry::{stores, Store};
use reading::image::Image;
use reading::layout::{header, kind};
use reading::lookup::{open, Journal};
use wrapper::raw;

/// A batch that was taken: its list, and the files with its first entries appended one by one.
pub struct Taken {
    pub list: Vec<u8>,
    pub points: Vec<usize>,
    pub files: Vec<Vec<u8>>,
}

/// The batch worked out by the archive as the reading does it, and carried out; the refusal where it is
/// not taken.
pub fn taken(batch: &Batch, tried: u64) -> Result<Result<Taken, u64>, String> {
    let (answer, list) = batch.put(16 * batch.need().unwrap_or(9), tried)?;
    let Ok(read) = &batch.read else {
        return Ok(Err(answer.refusal));
    };
    let files = read.files.clone();
    let (before, after) = (&files[0], &files[files.len() - 1]);
    match cut(before, &list, answer.stores)? == *after {
        true => Ok(Ok(Taken {
            list,
            points: read.sync_points(),
            files,
        })),
        false => Err("the batch leaves another file than its entries one by one".to_string()),
    }
}

/// "j being the commit stores that arrived"
fn committed(arrived: &[u8]) -> usize {
    let commits = |it: &Store| it.offset == header::N_ENTRIES;
    stores(arrived).into_iter().filter(commits).count()
}

/// What is asked of a batch's cuts.
struct Asking<'a> {
    taken: &'a Taken,
    journals: Vec<Journal<'a>>,
    asked: Vec<Asked>,
    answers: u64,
}

impl<'a> Asking<'a> {
    fn new(taken: &'a Taken) -> Result<Asking<'a>, String> {
        let opened = taken.files.iter().map(|file| open(file));
        let journals: Result<Vec<Journal>, u64> = opened.collect();
        let journals = journals.map_err(|number| format!("the reading refuses {number}"))?;
        let asked = questions(&journals[0], &journals[journals.len() - 1]);
        Ok(Asking {
            taken,
            journals,
            asked,
            answers: 0,
        })
    }

    /// A crash state with j entries in: it opens, one question in `step` is answered as on the file with
    /// j appended one by one, by the archive and by the reading, earlier payloads are as they were, and
    /// with all of the list it is the file with all entries.
    fn state(&mut self, image: &[u8], j: usize, start: usize, step: usize) -> Result<(), String> {
        let journal = open(image);
        let refusals = (raw::open(image), journal.as_ref().err());
        let (0, Ok(journal)) = (refusals.0, &journal) else {
            return Err(format!(
                "refused by the archive and the reading: {refusals:?}"
            ));
        };
        for asked in self.asked[start..].iter().step_by(step) {
            let should = checked(&self.journals[j], asked)?;
            let is = checked(journal, asked)?;
            if is != should {
                return Err(format!("{is:?}, and not {should:?}"));
            }
            self.answers += 1;
        }
        let Taken { list, files, .. } = self.taken;
        earlier_payloads(&self.journals[0].image, image)?;
        match cut(image, list, list.len() as u64 / 16)? == files[files.len() - 1] {
            true => Ok(()),
            false => Err("all of it once more leaves another file".to_string()),
        }
    }
}

/// "every DATA walked before the batch keeps place and bytes of its payload"
fn earlier_payloads(before: &Image, image: &[u8]) -> Result<(), String> {
    let now = Image::walked(image);
    for object in before.of_kind(kind::DATA) {
        let same = now.object_at(object.offset) == Some(object);
        if !same || now.payload(&object) != before.payload(&object) {
            return Err(format!("the DATA at {} changed", object.offset));
        }
    }
    Ok(())
}

/// Every cut, with one question in `step`, beginning with another one at each. The number of answers.
pub fn cuts(taken: &Taken, step: usize) -> Result<u64, String> {
    let mut asking = Asking::new(taken)?;
    let count = taken.list.len() / 16;
    for k in 0..=count {
        let image = cut(&taken.files[0], &taken.list, k as u64)?;
        let j = committed(&taken.list[..16 * k]);
        asking
            .state(&image, j, k % step, step)
            .map_err(|what| format!("a cut at {k} of {count}, with {j} entries: {what}"))?;
    }
    Ok(asking.answers)
}

/// All stores up to each sync point but the last, and of those up to the next one any, in any order,
/// `times` choices for each. The number of images.
pub fn orders(
    taken: &Taken,
    (times, step): (usize, usize),
    random: &mut Random,
) -> Result<u64, String> {
    let mut asking = Asking::new(taken)?;
    let (mut images, mut start) = (0, 0);
    for &point in &taken.points {
        let up_to_it: Vec<&[u8]> = taken.list[16 * start..16 * point].chunks(16).collect();
        for _ in 0..times {
            let mut some = some_of(random, &up_to_it);
            shuffle(random, &mut some);
            let arrived = [&taken.list[..16 * start], &some.concat()].concat();
            let image = cut(&taken.files[0], &arrived, arrived.len() as u64 / 16)?;
            let j = committed(&arrived);
            asking
                .state(&image, j, random.below(step), step)
                .map_err(|what| format!("some stores from {start} to {point}: {what}"))?;
            images += 1;
        }
        start = point;
    }
    Ok(images)
}
