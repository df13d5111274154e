//! A batch put to the archive and to the reading: the answer, every store, every other byte that was
//! lent, and the sync points.
use super::lent::Lent;
use super::syncs;
use crate::random::Random;
use reading::batch::{plan, write, Answer, Refused};
use reading::carry::stores;
use wrapper::raw;

/// A batch, with what the reading says of it.
pub struct Batch<'a> {
    image: &'a [u8],
    machine_id: [u8; 16],
    entries: &'a [u8],
    pub read: Result<reading::batch::Batch, Refused>,
}

impl<'a> Batch<'a> {
    pub fn new(image: &'a [u8], machine_id: [u8; 16], entries: &'a [u8]) -> Batch<'a> {
        Batch {
            image,
            machine_id,
            entries,
            read: plan(image, machine_id, entries),
        }
    }

    /// The number of stores, where only a list can be too short.
    pub fn need(&self) -> Option<usize> {
        self.read.as_ref().ok().map(|batch| batch.stores().len())
    }

    /// Puts it to the archive with a list of so many bytes that hold anything: its answer and the
    /// list then, or what differs.
    pub fn put(&self, length: usize, tried: u64) -> Result<(Answer, Vec<u8>), String> {
        let before = Random::new(tried).bytes(length);
        let mut should = before.clone();
        let expected = write(&self.read, &mut should);
        let mut image = Lent::new(self.image, tried);
        let mut entries = Lent::new(self.entries, tried / 2);
        let mut machine = Lent::new(&self.machine_id, tried / 3);
        let mut list = Lent::new(&before, tried / 7);
        let said = raw::plan_batch(
            image.bytes(),
            machine.bytes().try_into().expect("16 bytes"),
            entries.bytes(),
            list.bytes_mut(),
        );
        let answer = Answer {
            refusal: said.refusal,
            index: said.index,
            stores: said.stores,
        };
        if answer != expected {
            let why = self.read.as_ref().err();
            return Err(format!(
                "{answer:?}, and not {expected:?}, with a list of {length} bytes; {why:?}"
            ));
        }
        let list = list.after().ok_or("a byte around the list changed")?;
        if list != should {
            return Err(first_difference(&answer, list, &should));
        }
        for (what, lent, before) in [
            ("image", &mut image, self.image),
            ("entries", &mut entries, self.entries),
            ("machine id", &mut machine, &self.machine_id[..]),
        ] {
            if lent.after() != Some(before) {
                return Err(format!("a byte of the {what} or around it changed"));
            }
        }
        if let (0, Ok(batch)) = (answer.refusal, &self.read) {
            let list = &list[..16 * answer.stores as usize];
            syncs::put_all(list, &batch.sync_points(), tried)?;
        }
        Ok((answer, list.to_vec()))
    }

    /// Puts it with lists of several lengths: just long enough, longer with a rest below a store, a
    /// byte too short, a store too short and empty. The answer where the list is long enough.
    pub fn put_all(&self, tried: u64) -> Result<Answer, String> {
        // Where it is refused, a list that earlier entries may have fitted stays as it was too.
        let enough = 16 * self.need().unwrap_or(tried as usize % 397);
        if self.need().is_some() {
            self.put(enough - 1, tried + 1)?;
            self.put(enough - 16, tried + 2)?;
            self.put(enough + 1 + tried as usize % 47, tried + 3)?;
        }
        self.put(0, tried + 4)?;
        self.put(enough, tried).map(|(answer, _)| answer)
    }
}

/// Where two lists differ: the store, or a byte after the stores.
fn first_difference(answer: &Answer, list: &[u8], should: &[u8]) -> String {
    let is = stores(list);
    for (n, (is, should)) in is.iter().zip(stores(should)).enumerate() {
        if *is != should {
            return format!("{answer:?}: store {n} is {is:?}, and not {should:?}");
        }
    }
    format!("{answer:?}: a byte after the last store changed")
}
