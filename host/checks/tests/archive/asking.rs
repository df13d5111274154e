//! How lookups are tried: every question to an image, the archive's answer compared with the
//! reading's.
use checks::against::lookups::{archive, lookup, read, read_stamps, refused, Words};
use checks::against::trial::{hex, lend};
use checks::generator::questions::Arguments;
use checks::generator::wider::{of_refused, widen};
use reading::ask::Question;
use reading::layout::kind;
use reading::lookup::{open, Journal};
use wrapper::raw;

/// How much was compared.
#[derive(Default)]
pub struct Tried {
    /// Images by their refusal.
    pub images: [u64; 12],
    /// By lookup: answers with something, and with nothing, of images that open.
    found: [u64; 7],
    none: [u64; 7],
    /// Answers of refused images.
    pub refused: u64,
}

impl Tried {
    /// Asks all of an image, with the arguments of its own and those given.
    pub fn image(&mut self, image: &[u8], more: &Arguments) {
        let journal = open(image);
        let (questions, offsets) = match &journal {
            Ok(journal) => {
                let mut arguments = more.clone();
                arguments.add(journal);
                widen(&mut arguments, image.len() as u64);
                let offsets = arguments.offsets.iter().copied().collect();
                (arguments.questions(journal), offsets)
            }
            Err(number) => of_refused(image, *number),
        };

        let tried = self.images.iter().sum();
        lend(image, tried, |lent| {
            self.ask(lent, &journal, &questions, &offsets)
        });
        self.images[journal.err().unwrap_or(0) as usize] += 1;
    }

    /// Compares the archive's answers with the reading's.
    fn ask(
        &mut self,
        lent: &[u8],
        journal: &Result<Journal, u64>,
        questions: &[Question],
        offsets: &[u64],
    ) {
        for question in questions {
            let answer = archive(lent, question);
            let expected = match journal {
                Ok(journal) => read(journal, question),
                Err(number) => refused(question, *number),
            };
            if answer != expected {
                panic!(
                    "{question:?}: {answer:?}, and not {expected:?}, of {}",
                    hex(lent)
                );
            }
            self.count(lookup(question), journal.is_ok(), !answer.is_none());
        }
        for &offset in offsets {
            let answer = raw::stamps(lent, offset);
            let expected = match journal {
                Ok(journal) => read_stamps(journal, offset),
                Err(number) => raw::Stamps {
                    refusal: *number,
                    ..raw::Stamps::default()
                },
            };
            if answer != expected {
                panic!(
                    "stamps of {offset}: {answer:?}, and not {expected:?}, of {}",
                    hex(lent)
                );
            }
            self.count(6, journal.is_ok(), answer != raw::Stamps::default());
        }
        if let Ok(journal) = journal {
            self.lent_from_itself(lent, journal);
        }
    }

    /// A payload and a name may be lent from the image itself.
    fn lent_from_itself(&mut self, lent: &[u8], journal: &Journal) {
        for object in journal.image.of_kind(kind::DATA).iter().take(3) {
            let at = (object.offset + journal.image.layout.payload()) as usize;
            let payload = &lent[at..at + journal.image.payload(object).len()];
            let name = payload.split(|&byte| byte == b'=').next().unwrap();
            let holding = Question::Holding(payload.to_vec(), 0);
            let answer = Words::Number(raw::by_payload(lent, payload, 0));
            assert_eq!(answer, read(journal, &holding), "{holding:?}");
            self.count(3, true, answer != Words::Number(0));
            let values = Question::Payload(name.to_vec(), 0);
            let part = raw::value(lent, name, 0);
            assert_eq!(Words::Part(part), read(journal, &values), "{values:?}");
            self.count(5, true, part != raw::Part::default());
        }
        let whole = Question::Holding(lent.to_vec(), 0);
        let answer = Words::Number(raw::by_payload(lent, lent, 0));
        assert_eq!(answer, read(journal, &whole));
        self.count(3, true, false);
    }

    fn count(&mut self, lookup: usize, opens: bool, found: bool) {
        match (opens, found) {
            (false, _) => self.refused += 1,
            (true, true) => self.found[lookup] += 1,
            (true, false) => self.none[lookup] += 1,
        }
    }

    pub fn print(&self, what: &str) {
        let images: u64 = self.images.iter().sum();
        let answers = |all: &[u64; 7]| all.iter().sum::<u64>();
        println!(
            "{what}: {images} images, by refusal {:?}; {} answers found {:?}, {} none {:?}, {} refused \
             (entry, seqnum, realtime, payload, item, value, stamps)",
            self.images,
            answers(&self.found),
            self.found,
            answers(&self.none),
            self.none,
            self.refused,
        );
    }

    /// Every lookup found something, and nothing.
    pub fn covers(&self) {
        assert!(self.found.iter().chain(&self.none).all(|&n| n > 20));
    }
}
