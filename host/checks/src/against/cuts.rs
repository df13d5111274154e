//! Every cut of an append through the archive: "A cut at k, from 0 to the count, leaves the image
//! on which the append was worked out, with the first k stores of its list carried out". Up to the
//! commit store the answers are those from before the append, then those from after it.
use std::collections::BTreeSet;

use super::boot;
use super::foreign::{answer, places};
use super::lookups::{archive, read, read_stamps, Words};
use super::plan::{number, Append};
use crate::generator::questions::Arguments;
use reading::ask::Question;
use reading::boot::{boot_meaning, BootMeaning};
use reading::carry::{carry_out, stores};
use reading::foreign::Foreign;
use reading::image::le64;
use reading::layout::header;
use reading::lookup::{open, Journal};
use reading::request::{distinct, unpacked, Request};
use wrapper::raw::{self, Stamps};
use wrapper::Planned;

/// An append that was taken, cut everywhere and carried out.
pub struct Cut {
    pub after: Vec<u8>,
    pub cuts: u64,
    pub answers: u64,
}

/// One thing to ask: a lookup, the stamps at an offset, the foreign object at a place, or what the boot
/// id means.
pub(super) enum Asked {
    Lookup(Question),
    Stamps(u64),
    Foreign(u64),
    BootMeaning,
}

/// An answer, and the bytes that it shows.
#[derive(Debug, PartialEq)]
pub(super) enum Said<'a> {
    Lookup(Words, &'a [u8]),
    Stamps(Stamps),
    Foreign(Foreign),
    BootMeaning(BootMeaning),
}

/// What the archive says; none where it shows a part outside the image.
pub(super) fn said<'a>(image: &'a [u8], asked: &Asked) -> Option<Said<'a>> {
    match asked {
        Asked::Lookup(question) => {
            let words = archive(image, question);
            let bytes = match words {
                Words::Part(part) => {
                    let end = part.at.checked_add(part.len)?;
                    image.get(part.at as usize..end as usize)?
                }
                Words::Number(_) => &[],
            };
            Some(Said::Lookup(words, bytes))
        }
        Asked::Stamps(offset) => Some(Said::Stamps(raw::stamps(image, *offset))),
        Asked::Foreign(place) => Some(Said::Foreign(answer(image, *place))),
        Asked::BootMeaning => Some(Said::BootMeaning(boot::answer(image))),
    }
}

/// What the archive says to all that is asked, each compared with the reading.
pub(super) fn all<'a>(journal: &Journal<'a>, asked: &[Asked]) -> Result<Vec<Said<'a>>, String> {
    asked.iter().map(|asked| checked(journal, asked)).collect()
}

/// What it says to one of them.
pub(super) fn checked<'a>(journal: &Journal<'a>, asked: &Asked) -> Result<Said<'a>, String> {
    let said = said(journal.image.bytes, asked).ok_or("a part outside the image")?;
    let same = match (asked, &said) {
        (Asked::Lookup(question), Said::Lookup(words, _)) => *words == read(journal, question),
        (Asked::Stamps(at), Said::Stamps(stamps)) => *stamps == read_stamps(journal, *at),
        (Asked::Foreign(place), Said::Foreign(it)) => *it == journal.foreign(*place),
        (Asked::BootMeaning, Said::BootMeaning(it)) => *it == boot_meaning(journal.image.bytes),
        _ => false,
    };
    match same {
        true => Ok(said),
        false => Err(format!("{said:?}, and the reading says another thing")),
    }
}

/// Everything to ask of both images.
pub(super) fn questions(before: &Journal, after: &Journal) -> Vec<Asked> {
    let mut arguments = Arguments::default();
    arguments.add(before);
    arguments.add(after);
    let mut questions = BTreeSet::new();
    questions.extend(arguments.questions(before));
    questions.extend(arguments.questions(after));
    let stamps = arguments.offsets.into_iter().map(Asked::Stamps);
    let foreign = places(before.foreign_objects().len() as u64).map(Asked::Foreign);
    questions
        .into_iter()
        .map(Asked::Lookup)
        .chain(stamps)
        .chain(foreign)
        .chain([Asked::BootMeaning])
        .collect()
}

/// The append is worked out and carried out by the archive. At each cut the image opens, and one
/// question in `step` is asked, beginning with another one at each cut. The refusal where the
/// append is not taken.
pub fn cuts(
    image: &[u8],
    request: Request,
    step: usize,
    tried: u64,
) -> Result<Result<Cut, u64>, String> {
    let append = Append::new(image, request);
    let Some(need) = append.need() else {
        let (planned, _) = append.put(160, tried)?;
        return Ok(Err(number(&planned)));
    };
    let (planned, list) = append.put(16 * need, tried)?;
    let count = need as u64;
    if planned != (Planned::Stores { count }) {
        return Err(format!("{planned:?}, and {need} stores are needed"));
    }
    let after = cut(image, &list, count)?;
    let refused = |number: u64| format!("the reading refuses {number}");
    let (old, new) = (
        open(image).map_err(refused)?,
        open(&after).map_err(refused)?,
    );
    the_new_entry(&old, &new, &request)?;
    let asked = questions(&old, &new);
    let (old, new) = (all(&old, &asked)?, all(&new, &asked)?);
    // "The store of group 7 is the commit store", the last but one.
    let commit = count - 2;
    if stores(&list)[commit as usize].offset != header::N_ENTRIES {
        return Err("the last store but one is no commit store".to_string());
    }
    let mut answers = 0;
    for k in 0..=count {
        let cut = cut(image, &list, k)?;
        let refusal = raw::open(&cut);
        if refusal != 0 {
            return Err(format!("a cut at {k} of {count} is refused {refusal}"));
        }
        if self::cut(&cut, &list, count)? != after {
            return Err(format!("a cut at {k} of {count}, and then all of it"));
        }
        let expected = if k <= commit { &old } else { &new };
        for n in (k as usize % step..asked.len()).step_by(step) {
            let is = said(&cut, &asked[n]);
            if is.as_ref() != Some(&expected[n]) {
                let should = &expected[n];
                return Err(format!(
                    "a cut at {k} of {count}: {is:?}, and not {should:?}"
                ));
            }
            answers += 1;
        }
    }
    let cuts = count + 1;
    Ok(Ok(Cut {
        after: after.clone(),
        cuts,
        answers,
    }))
}

/// The image with the first k stores carried out by the archive, as the reading does it.
pub(super) fn cut(image: &[u8], list: &[u8], k: u64) -> Result<Vec<u8>, String> {
    let (mut cut, mut should) = (image.to_vec(), image.to_vec());
    let answers = (
        raw::carry_out(&mut cut, list, k),
        carry_out(&mut should, list, k),
    );
    match answers == (0, 0) && cut == should {
        true => Ok(cut),
        false => Err(format!("carrying out {k} stores: {answers:?}")),
    }
}

/// After the append there is one entry more, with what was asked for.
fn the_new_entry(before: &Journal, after: &Journal, request: &Request) -> Result<(), String> {
    let image = after.image.bytes;
    let place = before.n_entries();
    let offset = raw::entry(image, place);
    let payloads = distinct(&unpacked(request.fields).expect("refusal 16 passed"));
    let expected = Stamps {
        refusal: 0,
        seqnum: request.seqnum,
        realtime: request.realtime,
        monotonic: request.monotonic,
        boot_low: le64(&request.boot_id, 0),
        boot_high: le64(&request.boot_id, 8),
        items: payloads.len() as u64,
    };
    let held = |payload: &&[u8]| {
        let entries = before.entries_holding(payload).len() as u64;
        raw::by_payload(image, payload, entries) == offset
    };
    let whole = after.n_entries() == place + 1
        && raw::stamps(image, offset) == expected
        && payloads.iter().all(held);
    match whole {
        true => Ok(()),
        false => Err(format!("the new entry at {offset} is not what was asked")),
    }
}
