//! How pages are tried: every question to an image, from every place, in pages of every length at
//! which the answer changes; the archive's answer and page compared with the reading's.
use checks::against::lent::Lent;
use checks::against::trial::{hex, lend};
use checks::generator::questions::Arguments;
use checks::random::Random;
use reading::lookup::{open, Journal};
use reading::pages::{self, fill, Page};
use wrapper::raw;

/// What a page may be asked for.
#[derive(Clone, Debug)]
pub enum Asked {
    Entries,
    Matches(Vec<u8>),
    Values(Vec<u8>),
}

impl Asked {
    fn archive(&self, image: &[u8], place: u64, page: &mut [u8]) -> Page {
        let raw::Page {
            refusal,
            count,
            next,
        } = match self {
            Asked::Entries => raw::page_entries(image, place, page),
            Asked::Matches(payload) => raw::page_matches(image, payload, place, page),
            Asked::Values(name) => raw::page_values(image, name, place, page),
        };
        Page {
            refusal,
            count,
            next,
        }
    }

    /// All records, by the reading.
    pub fn records(&self, journal: &Journal) -> Vec<Vec<u8>> {
        match self {
            Asked::Entries => pages::entries(journal),
            Asked::Matches(payload) => pages::matches(journal, payload),
            Asked::Values(name) => pages::values(journal, name),
        }
    }
}

/// How much was compared.
#[derive(Default)]
pub struct Tried {
    pub images: [u64; 12],
    calls: u64,
    /// Calls that found no record, that left some for the next page, and that wrote the last one.
    pub none: u64,
    pub some: u64,
    pub all: u64,
}

impl Tried {
    pub fn image(&mut self, image: &[u8]) {
        let journal = open(image);
        let number = self.images.iter().sum();
        lend(image, number, |lent| match &journal {
            Ok(journal) => self.opened(lent, journal),
            Err(number) => self.refused(lent, *number),
        });
        self.images[journal.err().unwrap_or(0) as usize] += 1;
    }

    /// "Where the image is refused": its number, and the page as it was.
    pub fn refused(&mut self, image: &[u8], refusal: u64) {
        let name = b"MESSAGE".to_vec();
        let payload = b"MESSAGE=1".to_vec();
        for asked in [Asked::Entries, Asked::Matches(payload), Asked::Values(name)] {
            for (place, length) in [(0, 0), (0, 400), (1, 87), (u64::MAX, 64)] {
                let expected = Page {
                    refusal,
                    ..Page::default()
                };
                self.call(image, &asked, place, length, |_| expected);
            }
        }
    }

    fn opened(&mut self, image: &[u8], journal: &Journal) {
        let mut arguments = Arguments::default();
        arguments.add(journal);
        let mut asked = vec![Asked::Entries];
        asked.extend(arguments.payloads.into_iter().map(Asked::Matches));
        asked.extend(arguments.names.into_iter().map(Asked::Values));
        for asked in asked {
            let records = asked.records(journal);
            self.lengths(image, &asked, &records);
            self.one_after_another(image, &asked, &records);
        }
    }

    /// From every place: no page, one that is four times as long as the image and holds all, and those
    /// whose end is near the end of a record.
    pub fn lengths(&mut self, image: &[u8], asked: &Asked, records: &[Vec<u8>]) {
        let places = (0..records.len() as u64 + 2).chain([1 << 32, 1 << 63, u64::MAX]);
        for place in places {
            let rest = &records[records.len().min(place as usize)..];
            let enough = 4 * image.len();
            let mut lengths = vec![0, 1, 8, image.len(), enough];
            let mut end = 0;
            for (n, record) in rest.iter().enumerate() {
                end += record.len();
                // All ends from the first place; then those of the next records and of the last.
                if place == 0 || n < 2 || n + 1 == rest.len() {
                    lengths.extend([end - 8, end - 1, end, end + 1, end + 15]);
                }
            }
            for length in lengths {
                let fill = |page: &mut [u8]| fill(records, place, page);
                let answer = self.call(image, asked, place, length, fill);
                if length == enough {
                    assert_eq!((answer.count, answer.next), (rest.len() as u64, 0));
                }
            }
        }
    }

    /// As a host with a short page asks: on from the records it has, with a longer page if not even
    /// one fits.
    pub fn one_after_another(&mut self, image: &[u8], asked: &Asked, records: &[Vec<u8>]) {
        let (mut place, mut length, mut all) = (0, 100, Vec::new());
        loop {
            let mut page = vec![0; length];
            let answer = asked.archive(image, place, &mut page);
            self.calls += 1;
            let written = &records[place as usize..(place + answer.count) as usize];
            page.truncate(written.iter().map(Vec::len).sum());
            all.extend(page);
            place += answer.count;
            match answer.next as usize {
                0 => break,
                next if answer.count == 0 => {
                    assert!(next > length, "{asked:?} of {}", hex(image));
                    length = next;
                }
                _ => {}
            }
        }
        assert_eq!(all, records.concat(), "{asked:?} of {}", hex(image));
    }

    /// One call, against what is expected of the answer and of the page.
    pub fn call(
        &mut self,
        image: &[u8],
        asked: &Asked,
        place: u64,
        length: usize,
        expected: impl FnOnce(&mut [u8]) -> Page,
    ) -> Page {
        let before = Random::new(self.calls).bytes(length);
        let mut page = Lent::new(&before, self.calls);
        let answer = asked.archive(image, place, page.bytes_mut());
        let mut right = before;
        let answer_right = expected(&mut right);
        if answer != answer_right || page.after() != Some(&right[..]) {
            panic!(
                "{asked:?} from {place} in {length} bytes: {answer:?}, and not {answer_right:?}, or \
                 another page, of {}",
                hex(image)
            );
        }
        self.calls += 1;
        match answer {
            Page { count: 0, .. } => self.none += 1,
            Page { next: 0, .. } => self.all += 1,
            _ => self.some += 1,
        }
        answer
    }

    pub fn print(&self, what: &str) {
        let Tried {
            images,
            calls,
            none,
            some,
            all,
        } = self;
        println!(
            "{what}: {} images, by refusal {images:?}; {calls} calls, {none} without a record, {some} \
             with some, {all} with all",
            images.iter().sum::<u64>()
        );
    }
}
