//! `append`: one entry more. The library works out the stores on a copy of the file.
use crate::done::{self, Manner};
use crate::fault::Fault;
use crate::stamps::Wished;
use crate::text::counted;
use crate::{carry, doubt, settle, signals, times, why};
use std::collections::HashSet;
use std::path::Path;
use wrapper::{Fields, Refusal};

/// What was asked for.
pub struct Wish {
    pub stamps: Wished,
    /// Each `NAME=value`.
    pub payloads: Vec<Vec<u8>>,
}

pub fn append(path: &Path, wish: &Wish, manner: &Manner) -> Result<(), Fault> {
    let (file, image) = settle::locked(path, manner)?;
    let refused = |refusal| Fault::refused(path, &image, refusal);
    let entries = wrapper::all_entries(&image).map_err(refused)?;
    let last = entries.last();
    let fields = packed(&wish.payloads).map_err(refused)?;
    let stamps = wish.stamps.after(last.map_or(0, |entry| entry.seqnum))?;
    let request = &stamps.request(fields.packed());
    let list = wrapper::stores(&image, request).map_err(|refusal| {
        let append = why::Append {
            image: &image,
            last,
            wished: &wish.stamps,
            payloads: fields.payloads().collect(),
            request,
            of_a_text: false,
            next: request.seqnum,
        };
        match append.refused(refusal) {
            Some(why) => Fault::because(path, refusal, &why),
            None => refused(refusal),
        }
    })?;
    doubt::none(path, &wish.stamps, request)?;

    let mut mapped = carry::mapped(path, &file, &image)?;
    // From the first store to the last sync nobody ends this program, but by force: the file would
    // take no more appends. Who did try is obeyed once it is said that the entry is on the disk.
    signals::held(|| {
        let syncs = carry::at_places(path, &mut mapped, &list)?;
        carry::has_length(path, &file, &image)?;
        // The next one has its turn, also if nobody takes the answer.
        drop(mapped);
        drop(file);
        let words = format!(
            "appended entry {}, {} ({}), {}, {} stores, {syncs} syncs",
            request.seqnum,
            times::shown(request.realtime),
            request.realtime,
            counted(distinct(&wish.payloads), "field", "fields"),
            list.len() / 16,
        );
        done::say(manner, &words);
        Ok(())
    })
}

/// Payloads as the library takes them.
pub fn packed(payloads: &[Vec<u8>]) -> Result<Fields, Refusal> {
    let mut fields = Fields::new();
    for payload in payloads {
        fields.add_payload(payload)?;
    }
    Ok(fields)
}

/// How many payloads there are; one that is repeated counts once.
fn distinct(payloads: &[Vec<u8>]) -> usize {
    payloads.iter().collect::<HashSet<_>>().len()
}
