//! Files made, planned on and written by the archive, and how often it was asked.
use checks::against::plan::{number, Append};
use checks::generator::compact::set_layout;
use checks::random::Random;
use reading::layout::Layout;
use reading::request::{packed, Request};
use wrapper::{carry_out, new, Planned};

/// The machine's and the boot's id in `request` of the worked examples.
pub const MACHINE: [u8; 16] = [2; 16];
pub const BOOT: [u8; 16] = [5; 16];

/// A new file of the archive, for `request` of the worked examples, with a header of 256 bytes.
pub fn made(length: usize, cells: (u64, u64), keyed: bool) -> Vec<u8> {
    made_with(256, length, cells, keyed)
}

/// The same with a header of 256 or 272 bytes.
pub fn made_with(header_size: u64, length: usize, cells: (u64, u64), keyed: bool) -> Vec<u8> {
    let ids = [[1; 16], MACHINE, [3; 16], [4; 16]].concat();
    let mut image = Random::new(length as u64).bytes(length);
    let ids = ids[..].try_into().expect("64 bytes");
    assert_eq!(
        new(&mut image, ids, cells.0, cells.1, keyed, header_size),
        Ok(()),
        "a new file of {length} bytes"
    );
    image
}

/// The same made compact, or left regular: no new file is compact.
pub fn made_in(
    layout: Layout,
    header_size: u64,
    length: usize,
    cells: (u64, u64),
    keyed: bool,
) -> Vec<u8> {
    let mut image = made_with(header_size, length, cells, keyed);
    set_layout(&mut image, layout);
    image
}

/// Fields of owned payloads.
pub fn fields(payloads: &[Vec<u8>]) -> Vec<u8> {
    packed(&payloads.iter().map(|it| &it[..]).collect::<Vec<_>>())
}

/// A list of these stores.
pub fn list(stores: &[(u64, u64)]) -> Vec<u8> {
    let words = stores.iter().flat_map(|&(offset, value)| [offset, value]);
    words.flat_map(u64::to_le_bytes).collect()
}

/// How many appends were tried, by the answer: the refusal, or 0.
#[derive(Default)]
pub struct Tried(pub [u64; 26]);

impl Tried {
    fn count(&mut self, planned: Planned) -> u64 {
        let number = number(&planned);
        self.0[number as usize] += 1;
        number
    }

    fn tried(&self) -> u64 {
        self.0.iter().sum::<u64>() * 8
    }

    /// Tries an append with lists of several lengths; the answer with one that is long enough.
    pub fn append(&mut self, image: &[u8], request: Request) -> u64 {
        self.whole(&Append::new(image, request))
    }

    /// The same for one that the reading has worked out.
    pub fn whole(&mut self, append: &Append) -> u64 {
        let planned = append.put_all(self.tried());
        self.count(planned.unwrap_or_else(|difference| panic!("{difference}")))
    }

    /// Tries an append with one list of so many bytes; the answer and the list.
    pub fn with_list(&mut self, append: &Append, length: usize) -> (u64, Vec<u8>) {
        let (planned, list) = append
            .put(length, self.tried())
            .unwrap_or_else(|difference| panic!("{difference}"));
        (self.count(planned), list)
    }

    /// Tries an append that is taken, and carries it out; the stores.
    pub fn carried(&mut self, image: &mut [u8], request: Request) -> Vec<(u64, u64)> {
        let append = Append::new(image, request);
        let need = append.need().expect("it is taken");
        let (number, list) = self.with_list(&append, 16 * need);
        assert_eq!(number, 0);
        assert_eq!(carry_out(image, &list, need as u64), Ok(()));
        let word = |at: usize| u64::from_le_bytes(list[at..at + 8].try_into().expect("8 bytes"));
        (0..need)
            .map(|n| (word(16 * n), word(16 * n + 8)))
            .collect()
    }

    pub fn print(&self, what: &str) {
        let all: u64 = self.0.iter().sum();
        println!(
            "{what}: {all} appends, by their answers 0 to 25 {:?}",
            self.0
        );
    }
}
