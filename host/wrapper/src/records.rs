//! The records of a page, read one after the other.
use crate::lookups::Offset;
use crate::merged::Which;
use crate::pages::Entry;

#[derive(Debug)]
pub struct Records {
    page: Vec<u8>,
    at: usize,
}

impl Records {
    pub fn new(page: Vec<u8>) -> Records {
        Records { page, at: 0 }
    }

    /// The page for a call to fill, of at least so many bytes; its records are then read from the first.
    pub fn again(&mut self, room: usize) -> &mut [u8] {
        if self.page.len() < room {
            self.page.resize(room, 0);
        }
        self.at = 0;
        &mut self.page
    }

    fn bytes<const N: usize>(&mut self) -> [u8; N] {
        let bytes = &self.page[self.at..self.at + N];
        self.at += N;
        bytes.try_into().expect("N bytes")
    }

    pub fn word(&mut self) -> u64 {
        u64::from_le_bytes(self.bytes())
    }

    /// A payload of this image.
    pub fn payload<'a>(&mut self, image: &'a [u8]) -> &'a [u8] {
        let (at, len) = (self.word() as usize, self.word() as usize);
        &image[at..at + len]
    }

    /// An entry of this image.
    pub fn entry<'a>(&mut self, image: &'a [u8]) -> Entry<'a> {
        Entry {
            offset: Offset(self.word()),
            seqnum: self.word(),
            realtime: self.word(),
            monotonic: self.word(),
            boot_id: self.bytes(),
            payloads: {
                let items = self.word();
                (0..items).map(|_| self.payload(image)).collect()
            },
        }
    }

    /// An entry of one of these two images, with its file.
    pub fn turn_of<'a>(&mut self, first: &'a [u8], second: &'a [u8]) -> (Which, Entry<'a>) {
        let file = Which::new(self.word()).expect("a record begins with its file");
        (file, self.entry(file.of(first, second)))
    }
}
