//! How the plain reader is tried: questions to an image, put to both readers of the archive, and compared
//! with the reading.
use checks::against::lookups::lookup;
use checks::against::plain::compare;
use checks::against::trial::hex;
use checks::generator::questions::{one_of_each, Arguments};
use checks::generator::wider::{of_refused, widen};
use reading::ask::Question;
use reading::plain::{open, Plain};

/// How much was compared.
#[derive(Default)]
pub struct Tried {
    /// Images by their refusal.
    pub images: [u64; 15],
    /// By lookup: answers with something, and with nothing, of images that are read.
    found: [u64; 6],
    none: [u64; 6],
    /// Answers of refused images.
    refused: u64,
}

impl Tried {
    /// Asks all of an image, with the arguments of its own; its refusal.
    pub fn image(&mut self, image: &[u8]) -> u64 {
        self.some(image, 1)
    }

    /// One question in `step`, beginning with another one for each image, and the one that tells a
    /// refusal.
    pub fn some(&mut self, image: &[u8], step: usize) -> u64 {
        self.with(image, &Arguments::default(), step)
    }

    /// The same with arguments that are given too.
    pub fn with(&mut self, image: &[u8], more: &Arguments, step: usize) -> u64 {
        let opened = open(image);
        let (all, step) = match &opened {
            Ok(_) => (questions(image, more), step),
            // The answer is the same at every argument.
            Err(number) => (of_refused(image, *number).0, step.max(4)),
        };
        let first = self.tried() as usize % step;
        let mut some = vec![Question::Entry(0)];
        some.extend(all.into_iter().skip(first).step_by(step));
        self.put(image, &opened, &some)
    }

    /// Asks one question of each kind: this is for the refusal.
    pub fn refusal(&mut self, image: &[u8]) -> u64 {
        self.put(image, &open(image), &one_of_each())
    }

    fn put(&mut self, image: &[u8], opened: &Result<Plain, u64>, questions: &[Question]) -> u64 {
        let answers = compare(image, opened, questions, self.tried())
            .unwrap_or_else(|difference| panic!("{difference}, of {}", hex(image)));
        for (question, answer) in questions.iter().zip(answers) {
            let count = match (opened, answer.is_none()) {
                (Err(_), _) => &mut self.refused,
                (Ok(_), false) => &mut self.found[lookup(question)],
                (Ok(_), true) => &mut self.none[lookup(question)],
            };
            *count += 1;
        }
        let number = opened.as_ref().err().copied().unwrap_or(0);
        self.images[number as usize] += 1;
        number
    }

    fn tried(&self) -> u64 {
        self.images.iter().sum()
    }

    /// The images that are read, those that only 14 refuses, and those that 1 to 11 do.
    pub fn sorts(&self) -> [u64; 3] {
        let below = self.images[1..12].iter().sum();
        [self.images[0], self.images[14], below]
    }

    pub fn print(&self, what: &str) {
        let [read, only_14, below] = self.sorts();
        let all = |answers: &[u64; 6]| answers.iter().sum::<u64>();
        println!(
            "{what}: {} images, {read} read, {only_14} of 14 alone, {below} of 1 to 11 {:?}; \
             {} answers found {:?}, {} none {:?}, {} refused \
             (entry, seqnum, realtime, payload, item, value)",
            self.tried(),
            &self.images[1..12],
            all(&self.found),
            self.found,
            all(&self.none),
            self.none,
            self.refused,
        );
    }

    /// Every lookup found something, and nothing.
    pub fn covers(&self) {
        assert!(self.found.iter().chain(&self.none).all(|&n| n > 20));
    }
}

/// Every question at every place, to an image that is read; also with the whole image as a payload.
fn questions(image: &[u8], more: &Arguments) -> Vec<Question> {
    let journal = reading::lookup::open(image).expect("both readers take it");
    let mut arguments = more.clone();
    arguments.add(&journal);
    widen(&mut arguments, image.len() as u64);
    arguments.payloads.insert(image.to_vec());
    arguments.questions(&journal)
}
