//! A file that the archive makes and writes, looked at after each call.
use checks::generator::written::{made, MACHINE};
use reading::layout::Layout;
use wrapper::{carry_out, plan, plan_batch, Planned, PlannedBatch, Request};

use crate::look::look;
use crate::seen::Seen;

pub const BOOT: [u8; 16] = [5; 16];

/// The bytes of a list that is long enough for every append and batch here.
pub const LONG: usize = 16 * 60_000;

pub struct File<'a> {
    pub image: Vec<u8>,
    /// Of the last entry, which its times are too; 0 if there is none.
    pub seqnum: u64,
    pub entries: u64,
    list: Vec<u8>,
    seen: &'a mut Seen,
}

impl<'a> File<'a> {
    /// A new file of so many bytes, with so many cells in each of its tables.
    pub fn new(
        kind: (Layout, u64, bool),
        length: usize,
        cells: u64,
        seen: &'a mut Seen,
    ) -> File<'a> {
        let mut file = File {
            image: made(kind, length, cells),
            seqnum: 0,
            entries: 0,
            list: vec![0; LONG],
            seen,
        };
        file.looked();
        file
    }

    /// An append with the next number, carried out in full if it is taken; the answer.
    pub fn append(&mut self, fields: &[u8]) -> u64 {
        let next = self.seqnum + 1;
        self.append_as(&request(fields, next), LONG)
    }

    /// The same as it is asked for, with a list of so many bytes.
    pub fn append_as(&mut self, request: &Request, list: usize) -> u64 {
        let before = self.image.clone();
        let planned = plan(&self.image, request, &mut self.list[..list]);
        let answer = match planned {
            Planned::Refused(refusal) => Err(refusal.number()),
            Planned::TooShort { .. } => Err(19),
            Planned::Stores { count } => Ok(count),
        };
        assert!(self.image == before, "a plan writes no byte of the image");
        self.seen.appends[answer.err().unwrap_or(0) as usize] += 1;
        self.answered(answer, 1, request.seqnum)
    }

    /// The same with a batch of so many entries, the last of them with this number.
    pub fn batch(&mut self, entries: &[u8], count: u64, last: u64, list: usize) -> u64 {
        let before = self.image.clone();
        let planned = plan_batch(&self.image, &MACHINE, entries, &mut self.list[..list]);
        let answer = match planned {
            PlannedBatch::Refused(refused) => Err(refused.refusal.number()),
            PlannedBatch::TooShort { .. } => Err(19),
            PlannedBatch::Stores { count } => Ok(count),
        };
        assert!(self.image == before, "a plan writes no byte of the image");
        self.seen.batches[answer.err().unwrap_or(0) as usize] += 1;
        self.answered(answer, count, last)
    }

    /// Carries out what was planned, and looks at the file.
    fn answered(&mut self, answer: Result<u64, u64>, count: u64, last: u64) -> u64 {
        if let Ok(stores) = answer {
            assert_eq!(carry_out(&mut self.image, &self.list, stores), Ok(()));
            self.entries += count;
            self.seqnum = last;
        }
        self.looked();
        answer.err().unwrap_or(0)
    }

    fn looked(&mut self) {
        let chains = look(&self.image)
            .unwrap_or_else(|faults| panic!("after {} entries: {faults:?}", self.entries));
        assert_eq!(chains[0].entries, self.entries);
        self.seen.look(&chains);
    }
}

/// An append of an entry with this number, which its times are too.
pub fn request(fields: &[u8], seqnum: u64) -> Request<'_> {
    Request {
        machine: &MACHINE,
        boot: &BOOT,
        seqnum,
        realtime: seqnum,
        monotonic: seqnum,
        fields,
    }
}
