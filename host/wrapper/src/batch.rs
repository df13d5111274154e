//! A batch: several entries appended by one list of stores.
use crate::raw::{self, Request};
use crate::refusal::Refusal;
use std::fmt::{Display, Formatter};

/// An entry of a batch: what a `Request` asks for, without the machine.
#[derive(Clone, Copy, Debug)]
pub struct NewEntry<'a> {
    pub boot: &'a [u8; 16],
    pub seqnum: u64,
    pub realtime: u64,
    pub monotonic: u64,
    pub fields: &'a [u8],
}

impl<'a> From<&Request<'a>> for NewEntry<'a> {
    fn from(request: &Request<'a>) -> NewEntry<'a> {
        NewEntry {
            boot: request.boot,
            seqnum: request.seqnum,
            realtime: request.realtime,
            monotonic: request.monotonic,
            fields: request.fields,
        }
    }
}

/// Entries in one buffer: for each its sequence number, wall time and monotonic time, 8 bytes each,
/// little-endian, the boot id, the length of its fields in 4 bytes, and the fields.
///
/// ```
/// use wrapper::{Batch, NewEntry};
///
/// let fields = b"\x06\0\0\0LOT=12";
/// let mut batch = Batch::new();
/// for seqnum in [1, 2] {
///     batch.add(NewEntry { boot: &[7; 16], seqnum, realtime: 9, monotonic: 50, fields })?;
/// }
/// assert_eq!(batch.packed().len(), 2 * (44 + 10));
/// assert_eq!(batch.packed()[..8], 1u64.to_le_bytes());
/// assert_eq!(batch.packed()[40..54], *b"\x0a\0\0\0\x06\0\0\0LOT=12");
/// # Ok::<(), wrapper::Refusal>(())
/// ```
#[derive(Clone, Debug, Default, PartialEq, Eq)]
pub struct Batch {
    packed: Vec<u8>,
}

impl Batch {
    /// No entries yet, which 22 refuses; and so it does more than 32.
    pub fn new() -> Batch {
        Batch::default()
    }

    /// Adds an entry. 16 where 4 bytes do not hold the length of its fields; all else that is wrong with
    /// it `plan_batch` says.
    pub fn add(&mut self, entry: NewEntry) -> Result<&mut Batch, Refusal> {
        let wrong = |_| Refusal::new(16).expect("it is not 0");
        let len = u32::try_from(entry.fields.len()).map_err(wrong)?;
        for number in [entry.seqnum, entry.realtime, entry.monotonic] {
            self.packed.extend(number.to_le_bytes());
        }
        self.packed.extend(entry.boot);
        self.packed.extend(len.to_le_bytes());
        self.packed.extend(entry.fields);
        Ok(self)
    }

    /// What `plan_batch` takes as its `entries`.
    pub fn packed(&self) -> &[u8] {
        &self.packed
    }
}

/// Why a batch is refused, and at 16 to 18 the index of the first bad entry, from 0.
#[derive(Clone, Copy, Debug, PartialEq, Eq)]
pub struct RefusedBatch {
    pub refusal: Refusal,
    pub index: Option<u64>,
}

/// The refusal in words, behind the number of the entry as a person counts.
impl Display for RefusedBatch {
    fn fmt(&self, to: &mut Formatter) -> std::fmt::Result {
        match self.index {
            Some(index) => write!(to, "entry {} of the batch: {}", index + 1, self.refusal),
            None => write!(to, "{}", self.refusal),
        }
    }
}

impl std::error::Error for RefusedBatch {}

/// What a batch says.
#[derive(Clone, Copy, Debug, PartialEq, Eq)]
pub enum PlannedBatch {
    /// 1 to 18, 22 or 25, and the list is as it was.
    Refused(RefusedBatch),
    /// 19: the list has fewer whole stores than `need`, and is as it was.
    TooShort { need: u64 },
    /// The batch is taken: so many stores stand at the front of the list.
    Stores { count: u64 },
}

/// Works out the stores of a batch, to the front of the list, 16 bytes each. The image is not written:
/// `carry_out` does that.
pub fn plan_batch(
    image: &[u8],
    machine: &[u8; 16],
    entries: &[u8],
    stores: &mut [u8],
) -> PlannedBatch {
    let answer = raw::plan_batch(image, machine, entries, stores);
    match Refusal::new(answer.refusal) {
        None => PlannedBatch::Stores {
            count: answer.stores,
        },
        Some(refusal) if refusal.number() == 19 => PlannedBatch::TooShort {
            need: answer.stores,
        },
        Some(refusal) => PlannedBatch::Refused(RefusedBatch {
            refusal,
            index: (16..=18)
                .contains(&refusal.number())
                .then_some(answer.index),
        }),
    }
}

/// How many stores the list of `stores_batch` has room for at first: more than most batches need.
const ROOM: usize = 8_192;

/// The list of a batch's stores, as long as they are; or 1 to 18, 22 or 25.
///
/// ```
/// use wrapper::{carry_out, entries, new, stores_batch, Batch, Fields, NewEntry};
///
/// let mut image = vec![0; 8_192];
/// new(&mut image, &[7; 64], 1, 1, true, 256)?;
/// let mut batch = Batch::new();
/// for (seqnum, result) in [(1, "sprouted"), (2, "dead"), (3, "sprouted")] {
///     let mut fields = Fields::new();
///     fields.add("LOT", "12")?.add("STATE", result)?;
///     let (realtime, fields) = (1_700_000_000_000_000, fields.packed());
///     batch.add(NewEntry { boot: &[7; 16], seqnum, realtime, monotonic: 50, fields })?;
/// }
/// let list = stores_batch(&image, &[7; 16], batch.packed())?;
/// carry_out(&mut image, &list, list.len() as u64 / 16)?;
/// assert_eq!(entries(&image)?.count(), 3);
///
/// // The same numbers again are 17, and the first of them is named.
/// let refused = stores_batch(&image, &[7; 16], batch.packed()).expect_err("they are not above");
/// assert_eq!((refused.refusal.number(), refused.index), (17, Some(0)));
/// assert!(refused.to_string().starts_with("entry 1 of the batch: "));
/// # Ok::<(), Box<dyn std::error::Error>>(())
/// ```
pub fn stores_batch(
    image: &[u8],
    machine: &[u8; 16],
    entries: &[u8],
) -> Result<Vec<u8>, RefusedBatch> {
    let mut list = vec![0; 16 * ROOM];
    loop {
        match plan_batch(image, machine, entries, &mut list) {
            PlannedBatch::Refused(refused) => return Err(refused),
            PlannedBatch::TooShort { need } => list.resize(16 * need as usize, 0),
            PlannedBatch::Stores { count } => {
                list.truncate(16 * count as usize);
                return Ok(list);
            }
        }
    }
}
