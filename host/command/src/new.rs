//! `new`: a file with no entries.
use crate::done::{self, Manner};
use crate::fault::Fault;
use crate::ids::{self, Id};
use crate::sizes::{Sizes, HEADER_SIZE};
use crate::{fresh, signals, why_new};
use std::path::Path;
use wrapper::LONGEST_IMAGE;

/// What was asked for; the rest is chosen here.
pub struct Wish {
    pub sizes: Sizes,
    pub unkeyed: bool,
    pub machine: Option<Id>,
    pub boot: Option<Id>,
    /// Files of one such id go on with each other's sequence numbers.
    pub seqnum_id: Option<Id>,
}

pub fn new(path: &Path, wish: &Wish, manner: &Manner) -> Result<(), Fault> {
    let &Sizes {
        size,
        data_cells,
        field_cells,
        header_size,
    } = &wish.sizes;
    let machine = wish.machine.map_or_else(ids::machine, Ok)?;
    let boot = wish.boot.map_or_else(ids::boot, Ok)?;
    let file_id = ids::random()?;
    let seqnum_id = wish.seqnum_id.map_or_else(ids::random, Ok)?;
    let mut all = [0; 64];
    for (place, id) in [file_id, machine, boot, seqnum_id].iter().enumerate() {
        all[16 * place..][..16].copy_from_slice(id);
    }

    // A length above the greatest is refused like the first of them.
    let mut image = vec![0; size.min(LONGEST_IMAGE + 8) as usize];
    let made = wrapper::new(
        &mut image,
        &all,
        data_cells,
        field_cells,
        !wish.unkeyed,
        header_size,
    );
    made.map_err(|refusal| match why_new::of(&wish.sizes) {
        Some(why) => Fault::because(path, refusal, &why),
        None => Fault::because(path, refusal, refusal.sentence()),
    })?;
    signals::held(|| {
        fresh::kept(path, &image, fresh::MODE)?;
        let hash = if wish.unkeyed { "unkeyed" } else { "keyed" };
        // Of the header only what was not to be expected.
        let header = match header_size {
            HEADER_SIZE => String::new(),
            other => format!(", a header of {other} bytes"),
        };
        let words = format!(
            "made, {size} bytes, {data_cells} data cells, {field_cells} field cells, \
             {hash}{header}, file id {}",
            ids::shown(&file_id)
        );
        done::say(manner, &words);
        Ok(())
    })
}
