//! Why a batch is refused: the words that an append of the bad entry alone would have.
use crate::fault::Fault;
use crate::planned::{Refused, Tray};
use crate::stamps::Wished;
use crate::why::Append;
use std::path::Path;
use wrapper::{all_entries, carry_out, Refusal};

/// A batch, and the file that it is for.
pub struct Batch<'a> {
    pub path: &'a Path,
    pub image: &'a [u8],
    pub wished: &'a Wished,
    pub tray: Tray<'a>,
    /// Whether its stamps are those of a text, of which the entries before a bad one are appended.
    pub of_a_text: bool,
}

impl Batch<'_> {
    /// Words on an entry, by its index, become part of those of `of_entry`.
    pub fn refused(
        &self,
        refused: Refused,
        of_entry: impl FnOnce(usize, String) -> String,
    ) -> Fault {
        let Refused { refusal, index } = refused;
        let index = index.map(|index| index as usize);
        let why = self.why(refusal, index.unwrap_or(0));
        match (index, why) {
            (Some(index), why) => {
                let why = why.unwrap_or(refusal.sentence().to_string());
                Fault::because(self.path, refusal, &of_entry(index, why))
            }
            (None, Some(why)) => Fault::because(self.path, refusal, &why),
            (None, None) => Fault::refused(self.path, self.image, refusal),
        }
    }

    /// A sentence on an entry, which is judged on the file that those before it leave.
    fn why(&self, refusal: Refusal, index: usize) -> Option<String> {
        let mut image = self.image.to_vec();
        if index > 0 {
            let before = self.tray.before(index).stores(&image).ok()?;
            carry_out(&mut image, &before, before.len() as u64 / 16).ok()?;
        }
        let entries = all_entries(&image).ok()?;
        // Only the first one's number may have been typed.
        let seqnum = self.wished.seqnum.filter(|_| index == 0);
        let request = &self.tray.request(index);
        let append = Append {
            image: &image,
            last: entries.last(),
            wished: &Wished {
                seqnum,
                ..*self.wished
            },
            payloads: self.tray.entries[index].fields.payloads().collect(),
            request,
            of_a_text: self.of_a_text,
            next: match self.of_a_text {
                true => request.seqnum,
                // No entry of the batch is in this file.
                false => self.tray.first,
            },
        };
        append.refused(refusal)
    }
}
