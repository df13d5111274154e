//! New files, the plan of an append, and carrying out.
use crate::raw::{self, Request};
use crate::refusal::Refusal;

/// What an append says.
#[derive(Clone, Copy, Debug, PartialEq, Eq)]
pub enum Planned {
    /// 1 to 18 or 25, and the list is as it was.
    Refused(Refusal),
    /// 19: the list has fewer whole stores than `need`, and is as it was.
    TooShort { need: u64 },
    /// The append is taken: so many stores stand at the front of the list.
    Stores { count: u64 },
}

impl Planned {
    /// The refusal, 19 too; none for an append that is taken.
    pub fn refusal(&self) -> Option<Refusal> {
        match self {
            Planned::Refused(refusal) => Some(*refusal),
            Planned::TooShort { .. } => Refusal::new(19),
            Planned::Stores { .. } => None,
        }
    }
}

/// Makes a new file of all of `image`, with file, machine, boot and seqnum id one after the other
/// in `ids` and a header of 256 or 272 bytes; or 20, and no byte changes.
pub fn new(
    image: &mut [u8],
    ids: &[u8; 64],
    data_cells: u64,
    field_cells: u64,
    keyed: bool,
    header_size: u64,
) -> Result<(), Refusal> {
    let keyed = u64::from(keyed);
    Refusal::check(raw::new(
        image,
        ids,
        data_cells,
        field_cells,
        keyed,
        header_size,
    ))
}

/// Works out the stores of an append, to the front of the list, 16 bytes each. The image is not
/// written: `carry_out` does that.
pub fn plan(image: &[u8], request: &Request, stores: &mut [u8]) -> Planned {
    let answer = raw::plan(image, request, stores);
    // The refusal and 256 times the number of stores. Any other refusal than 19 stands alone.
    let stores = answer / 256;
    match answer % 256 {
        19 => Planned::TooShort { need: stores },
        0 => Planned::Stores { count: stores },
        _ => Planned::Refused(Refusal::new(answer).expect("it is not 0")),
    }
}

/// How many stores the list of `stores` has room for at first: more than most appends need.
const ROOM: usize = 4_096;

/// The list of an append's stores, as long as they are; or 1 to 18 or 25.
///
/// ```
/// use wrapper::{carry_out, entries, new, stores, Fields, Request};
///
/// let mut image = vec![0; 4_096];
/// new(&mut image, &[7; 64], 1, 1, true, 256)?;
/// let mut fields = Fields::new();
/// fields.add("MESSAGE", "lot 12 due")?.add("PRIORITY", "2")?;
/// let request = Request {
///     machine: &[7; 16],
///     boot: &[7; 16],
///     seqnum: 1,
///     realtime: 1_700_000_000_000_000,
///     monotonic: 50,
///     fields: fields.packed(),
/// };
/// let list = stores(&image, &request)?;
/// assert_eq!(list.len(), 16 * 72);
/// carry_out(&mut image, &list, 72)?;
/// assert_eq!(entries(&image)?.next().map(|entry| entry.payloads.len()), Some(2));
///
/// // The same number again is 17.
/// let refusal = stores(&image, &request).expect_err("it would not come after the last one");
/// assert_eq!(refusal.number(), 17);
/// # Ok::<(), Box<dyn std::error::Error>>(())
/// ```
pub fn stores(image: &[u8], request: &Request) -> Result<Vec<u8>, Refusal> {
    let mut list = vec![0; 16 * ROOM];
    loop {
        match plan(image, request, &mut list) {
            Planned::Refused(refusal) => return Err(refusal),
            Planned::TooShort { need } => list.resize(16 * need as usize, 0),
            Planned::Stores { count } => {
                list.truncate(16 * count as usize);
                return Ok(list);
            }
        }
    }
}

/// Carries out the first `k` stores of the list on the image; or 21, and no byte changes.
pub fn carry_out(image: &mut [u8], stores: &[u8], k: u64) -> Result<(), Refusal> {
    Refusal::check(raw::carry_out(image, stores, k))
}
