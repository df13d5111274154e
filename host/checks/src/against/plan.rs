//! An append put to the archive and to the reading: the answer, every store, every other byte that
//! was lent, and the sync points.
use super::lent::Lent;
use super::syncs;
use crate::random::Random;
use reading::carry::{stores, Store};
use reading::plan::{groups, sync_points, write};
use reading::refusal::Clause;
use reading::request::Request;
use wrapper::{Planned, Refusal};

/// An append, with what the reading says of it.
pub struct Append<'a> {
    image: &'a [u8],
    request: Request<'a>,
    pub read: Result<Vec<Store>, Vec<Clause>>,
    /// Where to sync, if it is taken.
    pub points: Vec<usize>,
}

impl<'a> Append<'a> {
    pub fn new(image: &'a [u8], request: Request<'a>) -> Append<'a> {
        let groups = groups(image, &request);
        let points = groups.as_deref().map_or(Vec::new(), sync_points);
        let read = groups.map(|groups| groups.concat());
        Append {
            image,
            request,
            read,
            points,
        }
    }

    /// The number of stores, where only a list can be too short.
    pub fn need(&self) -> Option<usize> {
        self.read.as_ref().ok().map(|stores| stores.len())
    }

    /// Puts it to the archive with a list of so many bytes that hold anything: its answer and the
    /// list then, or what differs.
    pub fn put(&self, length: usize, tried: u64) -> Result<(Planned, Vec<u8>), String> {
        let before = Random::new(tried).bytes(length);
        let mut should = before.clone();
        let answer = write(&self.read, &mut should);
        let expected = match answer.refusal {
            0 => Planned::Stores {
                count: answer.stores,
            },
            19 => Planned::TooShort {
                need: answer.stores,
            },
            number => Planned::Refused(Refusal::new(number).expect("it is not 0")),
        };
        let mut image = Lent::new(self.image, tried);
        let mut fields = Lent::new(self.request.fields, tried / 2);
        let mut machine = Lent::new(&self.request.machine_id, tried / 3);
        let mut boot = Lent::new(&self.request.boot_id, tried / 5);
        let mut list = Lent::new(&before, tried / 7);
        let request = wrapper::Request {
            machine: machine.bytes().try_into().expect("16 bytes"),
            boot: boot.bytes().try_into().expect("16 bytes"),
            seqnum: self.request.seqnum,
            realtime: self.request.realtime,
            monotonic: self.request.monotonic,
            fields: fields.bytes(),
        };
        let planned = wrapper::plan(image.bytes(), &request, list.bytes_mut());
        if planned != expected {
            let why = self.read.as_ref().err();
            return Err(format!(
                "{planned:?}, and not {expected:?}, with a list of {length} bytes; clauses {why:?}"
            ));
        }
        let list = list.after().ok_or("a byte around the list changed")?;
        if list != should {
            return Err(first_difference(&planned, list, &should));
        }
        for (what, lent, before) in [
            ("image", &mut image, self.image),
            ("fields", &mut fields, self.request.fields),
            ("machine id", &mut machine, &self.request.machine_id[..]),
            ("boot id", &mut boot, &self.request.boot_id[..]),
        ] {
            if lent.after() != Some(before) {
                return Err(format!("a byte of the {what} or around it changed"));
            }
        }
        if let Planned::Stores { count } = planned {
            syncs::put_all(&list[..16 * count as usize], &self.points, tried)?;
        }
        Ok((planned, list.to_vec()))
    }

    /// Puts it with lists of several lengths: just long enough, longer with a rest below a store, a
    /// byte too short, a store too short and empty. The answer where the list is long enough.
    pub fn put_all(&self, tried: u64) -> Result<Planned, String> {
        let enough = 16 * self.need().unwrap_or(tried as usize % 4);
        if self.need().is_some() {
            self.put(enough - 1, tried + 1)?;
            self.put(enough - 16, tried + 2)?;
            self.put(enough + 1 + tried as usize % 47, tried + 3)?;
        }
        self.put(0, tried + 4)?;
        self.put(enough, tried).map(|(planned, _)| planned)
    }
}

/// The number of a refusal; 0 for an append that is taken.
pub fn number(planned: &Planned) -> u64 {
    planned.refusal().map_or(0, Refusal::number)
}

/// Where two lists differ: the store, or a byte after the stores.
fn first_difference(planned: &Planned, list: &[u8], should: &[u8]) -> String {
    let is = stores(list);
    for (n, (is, should)) in is.iter().zip(stores(should)).enumerate() {
        if *is != should {
            return format!("{planned:?}: store {n} is {is:?}, and not {should:?}");
        }
    }
    format!("{planned:?}: a byte after the last store changed")
}
