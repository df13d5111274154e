//! How pages of a stream are tried: from every pair of places, in pages of every length at which the
//! answer changes, and one after another; the archive's answer and page compared with the reading's.
use checks::against::lent::Lent;
use checks::against::merged;
use checks::against::trial::{hex, lend};
use checks::random::Random;
use reading::merged::{Shown, Stream};
use reading::merged_answers::{record, MergedPage, Opened};
use wrapper::raw;

fn stream<'a, 'b>(opened: &'b Opened<'a>) -> &'b Stream<'a> {
    match &opened.0 {
        Ok(stream) => stream,
        Err(refused) => panic!("{refused:?}"),
    }
}

/// Calls by what they find: no record, some for this page and some for the next, and the last one.
#[derive(Default)]
pub struct Tried {
    calls: u64,
    pub none: u64,
    pub some: u64,
    pub all: u64,
}

impl Tried {
    /// One call, against the reading's answer and page.
    pub fn call(&mut self, images: [&[u8]; 2], opened: &Opened, at: [u64; 2], length: usize) {
        let before = Random::new(self.calls).bytes(length);
        let mut page = Lent::new(&before, self.calls);
        let is = merged::page(images[0], images[1], at, page.bytes_mut());
        let mut right = before;
        let answer = opened.page(at[0], at[1], &mut right);
        if is != answer || page.after() != Some(&right[..]) {
            let [first, second] = images.map(hex);
            panic!(
                "from {at:?} in {length} bytes: {is:?}, and not {answer:?}, or another page, of \
                 {first} and {second}"
            );
        }
        self.calls += 1;
        match is {
            MergedPage { count: 0, .. } => self.none += 1,
            MergedPage { next: 0, .. } => self.all += 1,
            _ => self.some += 1,
        }
    }

    /// From every pair of places: no page, one four times as long as both images, and those whose end is near
    /// the end of the first record; from 0 and 0 and from the middle near the end of every record.
    pub fn pair(&mut self, first: &[u8], second: &[u8]) {
        let opened = Opened::new(first, second);
        let stream = stream(&opened);
        let ends = [&stream.first, &stream.second].map(|it| it.committed.len() as u64);
        let places = |end: u64| (0..=end).chain([u64::MAX]);
        lend(first, self.calls, |first| {
            lend(second, self.calls / 2, |second| {
                for at_first in places(ends[0]) {
                    for at_second in places(ends[1]) {
                        let at = [at_first, at_second];
                        let whole = [[0, 0], ends.map(|it| it / 2)].contains(&at);
                        let mut lengths = vec![0, 4 * (first.len() + second.len())];
                        let mut end = 0;
                        for Shown { file, entry, .. } in stream.all(at_first, at_second) {
                            end += record(stream, file, entry).len();
                            lengths.extend([end - 8, end - 1, end, end + 1, end + 63]);
                            if !whole {
                                break;
                            }
                        }
                        for length in lengths {
                            self.call([first, second], &opened, at, length);
                        }
                    }
                }
            })
        });
        self.one_after_another([first, second], &opened);
    }

    /// As a host with a short page asks: on from where the last page ended, with a longer page if not
    /// even one record fits. All in all these are the records of the archive's single steps.
    pub fn one_after_another(&mut self, images: [&[u8]; 2], opened: &Opened) {
        let stream = stream(opened);
        let (mut at, mut expected) = (raw::Merged::default(), Vec::new());
        loop {
            at = raw::merged(images[0], images[1], at.next_first, at.next_second);
            if at == raw::Merged::default() {
                break;
            }
            expected.push(record(stream, at.file, at.entry));
            assert!(expected.len() <= stream.all(0, 0).len());
        }
        let (mut at, mut length, mut all) = ([0, 0], 100, Vec::new());
        loop {
            let mut page = vec![0; length];
            let answer = merged::page(images[0], images[1], at, &mut page);
            self.calls += 1;
            let written = &expected[all.len()..all.len() + answer.count as usize];
            let mut start = 0;
            for record in written {
                all.push(page[start..start + record.len()].to_vec());
                start += record.len();
            }
            at = [answer.next_first, answer.next_second];
            match answer.next as usize {
                0 => break,
                next if answer.count == 0 => {
                    assert!(next > length);
                    length = next;
                }
                _ => {}
            }
        }
        assert_eq!(all, expected);
    }

    pub fn print(&self, what: &str) {
        let Tried {
            calls,
            none,
            some,
            all,
        } = self;
        println!(
            "{what}: {calls} calls, {none} without a record, {some} with some, {all} with all"
        );
    }
}
