//! Files that the archive makes, batches for them, and how often it was asked.
use checks::against::batch::Batch;
use checks::generator::batches::Case;
use checks::generator::worked::request;
pub use checks::generator::written::{made, MACHINE, WRITTEN};
use reading::batch::{packed, Answer};
use reading::request::{self as buffer, Request};

/// The buffer of entries with these payloads, of one boot and with the numbers from one on, which are
/// their times too.
pub fn numbered(first: u64, entries: &[&[&str]]) -> Vec<u8> {
    let packs: Vec<Vec<u8>> = entries.iter().map(|payloads| fields(payloads)).collect();
    let asked = packs.iter().zip(first..);
    let requests: Vec<Request> = asked.map(|(fields, n)| request(fields, n, n, n)).collect();
    packed(&requests)
}

/// The fields of an entry with these payloads.
pub fn fields(payloads: &[&str]) -> Vec<u8> {
    let payloads: Vec<&[u8]> = payloads.iter().map(|payload| payload.as_bytes()).collect();
    buffer::packed(&payloads)
}

/// How many batches were tried, by the answer: the refusal, or 0.
#[derive(Default)]
pub struct Tried(pub [u64; 26]);

impl Tried {
    pub fn tried(&self) -> u64 {
        self.0.iter().sum::<u64>() * 8
    }

    fn count(&mut self, answer: Answer) -> Answer {
        self.0[answer.refusal as usize] += 1;
        answer
    }

    /// Tries a batch with lists of several lengths; the answer with one that is long enough.
    pub fn batch(&mut self, image: &[u8], machine_id: [u8; 16], entries: &[u8]) -> Answer {
        self.whole(&Batch::new(image, machine_id, entries))
    }

    /// The same of one that was made.
    pub fn case(&mut self, case: &Case) -> Answer {
        self.batch(&case.image, case.machine_id, &case.entries())
    }

    /// The same for one that the reading has worked out.
    pub fn whole(&mut self, batch: &Batch) -> Answer {
        let answer = batch.put_all(self.tried());
        self.count(answer.unwrap_or_else(|difference| panic!("{difference}")))
    }

    /// Tries a batch with one list of so many bytes; the answer and the list.
    pub fn with_list(&mut self, batch: &Batch, length: usize) -> (Answer, Vec<u8>) {
        let put = batch.put(length, self.tried());
        let (answer, list) = put.unwrap_or_else(|difference| panic!("{difference}"));
        (self.count(answer), list)
    }

    pub fn print(&self, what: &str) {
        let all: u64 = self.0.iter().sum();
        println!(
            "{what}: {all} batches, by their answers 0 to 25 {:?}",
            self.0
        );
    }
}

/// The answer of a batch that is refused for an entry.
pub fn refused(refusal: u64, index: u64) -> Answer {
    Answer {
        refusal,
        index,
        stores: 0,
    }
}
