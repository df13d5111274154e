//! How many lookups at once are tried: every question with all its arguments, the archive's sum
//! compared with the reading's.
use checks::against::lookups::read_stamps;
use checks::against::trial::{hex, lend};
use checks::generator::questions::Arguments;
use checks::generator::wider::widen;
use measured::lookups;
use reading::lookup::{open, Journal, Part};

/// Every question; 6 and above are the same.
const KINDS: [u64; 9] = [0, 1, 2, 3, 4, 5, 6, 7, u64::MAX];

/// A question without its argument. There are bytes and a place also where they play no part.
#[derive(Debug)]
struct Asked<'a> {
    kind: u64,
    bytes: &'a [u8],
    place: u64,
}

impl Asked<'_> {
    fn archive(&self, image: &[u8], arguments: &[u8], number: u64) -> u64 {
        lend(image, number, |image| {
            lend(self.bytes, number + 1, |bytes| {
                lend(arguments, number + 2, |arguments| {
                    lookups(image, self.kind, bytes, self.place, arguments)
                })
            })
        })
    }

    /// The number of the reading's answer, of an image that opens.
    fn read(&self, journal: &Journal, argument: u64) -> u64 {
        let length = |part: Option<Part>| part.map_or(0, |it| it.length);
        match self.kind {
            0 => journal.entry(argument).unwrap_or(0),
            1 => journal.first_seqnum(argument).unwrap_or(0),
            2 => journal.first_realtime(argument).unwrap_or(0),
            3 => journal.entry_holding(self.bytes, argument).unwrap_or(0),
            4 => length(journal.item(argument, self.place)),
            5 => length(journal.payload(self.bytes, argument)),
            _ => read_stamps(journal, argument).seqnum,
        }
    }
}

/// An argument, and the answer to it.
type Answered = (u64, u64);

/// How much was compared.
#[derive(Default)]
pub struct Tried {
    /// Images by their refusal.
    pub images: [u64; 12],
    calls: u64,
    /// Arguments by kind that were answered with something.
    found: [u64; 7],
    /// Sums of 2^64 or more.
    wrapped: u64,
}

impl Tried {
    /// Asks every question, of the payloads and names one in `step`.
    pub fn image(&mut self, image: &[u8], step: usize) {
        let journal = open(image);
        match &journal {
            Ok(journal) => self.opened(journal, step),
            Err(number) => self.refused(image, *number),
        }
        self.images[journal.err().unwrap_or(0) as usize] += 1;
    }

    /// The number, whatever is asked, and also where nothing is.
    fn refused(&mut self, image: &[u8], number: u64) {
        for kind in KINDS {
            for (bytes, place) in [(&b""[..], 0), (b"MESSAGE", 1), (b"MESSAGE=1", u64::MAX)] {
                let asked = Asked { kind, bytes, place };
                for arguments in [&[][..], &[0], &[256, 1, u64::MAX]] {
                    let arguments = arguments.iter().map(|&it| (it, 0)).collect::<Vec<_>>();
                    self.call(image, &asked, &arguments, number);
                }
            }
        }
    }

    fn opened(&mut self, journal: &Journal, step: usize) {
        let mut all = Arguments::default();
        all.add(journal);
        widen(&mut all, journal.image.bytes.len() as u64);
        let places = |n: usize| Vec::from_iter((0..n as u64 + 2).chain([1 << 63, u64::MAX]));
        let offsets = Vec::from_iter(all.offsets);
        for kind in KINDS {
            let asked = |bytes, place| Asked { kind, bytes, place };
            let plain = asked(b"MESSAGE", 1);
            match kind {
                0 => self.sums(journal, &plain, &places(journal.committed.len())),
                1 => self.sums(journal, &plain, &Vec::from_iter(all.seqnums.clone())),
                2 => self.sums(journal, &plain, &Vec::from_iter(all.realtimes.clone())),
                3 => {
                    for payload in all.payloads.iter().step_by(step) {
                        let places = places(journal.entries_holding(payload).len());
                        self.sums(journal, &asked(payload, 1), &places);
                    }
                }
                4 => {
                    for place in [0, 1, 2, 3, 1 << 60, u64::MAX] {
                        self.sums(journal, &asked(b"MESSAGE", place), &offsets);
                    }
                }
                5 => {
                    for name in all.names.iter().step_by(step) {
                        let places = places(journal.payloads(name).len());
                        self.sums(journal, &asked(name, 1), &places);
                    }
                }
                _ => self.sums(journal, &plain, &offsets),
            }
        }
    }

    /// All arguments together; those that find something, of which none can be left out without
    /// another sum; some alone; and none.
    fn sums(&mut self, journal: &Journal, asked: &Asked, arguments: &[u64]) {
        let answer = |&argument: &u64| (argument, asked.read(journal, argument));
        let all: Vec<Answered> = arguments.iter().map(answer).collect();
        let found: Vec<Answered> = all.iter().copied().filter(|it| it.1 != 0).collect();
        self.found[asked.kind.min(6) as usize] += found.len() as u64;
        let alone = all.iter().step_by(3).chain(found.last());
        for answered in [&all[..], &found, &[]]
            .into_iter()
            .chain(alone.map(std::slice::from_ref))
        {
            let sum: u128 = answered.iter().map(|it| u128::from(it.1)).sum();
            self.wrapped += (sum >> 64 != 0) as u64;
            self.call(journal.image.bytes, asked, answered, sum as u64);
        }
    }

    /// One call, with bytes after the arguments that are no whole word: of the last one again.
    fn call(&mut self, image: &[u8], asked: &Asked, answered: &[Answered], expected: u64) {
        let last = answered.last().map_or(0, |it| it.0).to_le_bytes();
        let whole = answered.iter().flat_map(|it| it.0.to_le_bytes());
        let rest = self.calls as usize % 8;
        let arguments: Vec<u8> = whole.chain(last.into_iter().take(rest)).collect();
        let answer = asked.archive(image, &arguments, self.calls);
        if answer != expected {
            panic!(
                "{asked:?} of {answered:?} and {rest} bytes: {answer}, and not {expected}, of {}",
                hex(image)
            );
        }
        self.calls += 1;
    }

    pub fn print(&self, what: &str) {
        let Tried {
            images,
            calls,
            found,
            wrapped,
        } = self;
        println!(
            "{what}: {} images, by refusal {images:?}; {calls} calls, {wrapped} with a sum of 2^64 \
             or more; arguments that found something {found:?} (entry, seqnum, realtime, payload, \
             item, value, stamps)",
            images.iter().sum::<u64>()
        );
    }

    /// Every question found something, and some sums were 2^64 or more.
    pub fn covers(&self) {
        assert!(self.found.iter().all(|&n| n > 20) && self.wrapped > 0);
    }
}
